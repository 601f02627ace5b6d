; An ENDL that names another slot than its LOOP.
;
; $ x10p bounds endl_of_another_slot.x10
; status 1: verify: Structure LoopSlot 0 1
; $ x10p verify endl_of_another_slot.x10
; status 1: verify: Structure LoopSlot 0 1
places 1
func 1 1 none
LOOP 0 3
ENDL 1 1
RET 0
end
entry 0
