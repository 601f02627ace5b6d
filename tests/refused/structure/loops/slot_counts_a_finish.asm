; A loop's slot counts the loops around it, and no finish. In function 0 the loop in the finish has slot 0, in function
; 1 it has slot 1.
;
; $ x10p bounds slot_counts_a_finish.x10
; status 1: verify: Structure LoopSlot 1 1
; $ x10p verify slot_counts_a_finish.x10
; status 1: verify: Structure LoopSlot 1 1
places 1
func 1 2 none
FINB
LOOP 0 2
ENDL 0 2
FINE
RET 0
end
func 1 2 none
FINB
LOOP 1 2
ENDL 1 2
FINE
RET 0
end
entry 0
