; A label that stands before the instruction that goes to it, and begins with `_`.
;
; $ x10p list label_before_its_use.x10
; places 1
; func 1 1 none
; LOOP 0 2
; ENDL 0 1
; RET 0
; end
; entry 0
places 1
func 1 1 none
LOOP 0 2
_1:
ENDL 0 @_1
RET 0
end
entry 0
