; The outermost loop has slot 0.
;
; $ x10p bounds second_slot_first.x10
; status 1: verify: Structure LoopSlot 0 0
; $ x10p verify second_slot_first.x10
; status 1: verify: Structure LoopSlot 0 0
places 1
int 0
func 1 3 none
LOOP 1 2
ENDL 1 1
RET 0
end
entry 0
