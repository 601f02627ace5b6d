; A loop whose slot is not its depth.
;
; $ x10p verify --explain not_the_next_slot.x10
; status 1: verify: Structure LoopSlot 0 1
; > LoopSlot, function 0, instruction 1: LOOP 1 10
; > No loop is around this one, so its slot is 0 and not 1.
places 1
int 7
func 1 2 none
INTK 0 0
LOOP 1 10
again:
PRINT 0
ENDL 1 @again
RET 0
end
entry 0
