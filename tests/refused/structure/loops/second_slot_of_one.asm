; The outermost loop has slot 1, and the function has one slot, number 0.
;
; $ x10p bounds second_slot_of_one.x10
; status 1: verify: Structure LoopSlot 0 0
; $ x10p verify second_slot_of_one.x10
; status 1: verify: Structure LoopSlot 0 0
places 1
func 1 1 none
LOOP 1 2
ENDL 1 1
RET 0
end
entry 0
