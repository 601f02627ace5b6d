; A loop in a function that has no loop slot: what its line has to be.
;
; $ x10p check loop_without_a_slot.asm
; LoopSlot, function 0, instruction 0: LOOP 0 7
; line 11: LOOP 0 7
; The function has no loop slot; for slot 0 its line begins with `func 2 1`.
; status 1: verify: Structure LoopSlot 0 0
places 1
int 7
func 2 0 none
LOOP 0 7
turn:
HERE 0
ENDL 0 @turn
RET 0
end
entry 0
