; A label that stands after the instruction that goes to it, at the last instruction.
;
; $ x10p list label_after_its_use.x10
; places 1
; int 7
; func 1 0 none
; INTK 0 0
; JMP 3
; PRINT 0
; RET 0
; end
; entry 0
places 1
int 7
func 1 0 none
INTK 0 0
JMP @a
PRINT 0
a:
RET 0
end
entry 0
