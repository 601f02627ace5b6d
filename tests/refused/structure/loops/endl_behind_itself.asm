; An ENDL that goes to the instruction behind itself, and not to the one behind its LOOP.
;
; $ x10p bounds endl_behind_itself.x10
; status 1: verify: Structure Jump 0 1
; $ x10p verify endl_behind_itself.x10
; status 1: verify: Structure Jump 0 1
places 1
func 1 1 none
LOOP 0 2
ENDL 0 2
RET 0
end
entry 0
