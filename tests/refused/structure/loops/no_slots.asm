; A loop in a function that has no loop slots.
;
; $ x10p bounds no_slots.x10
; status 1: verify: Structure LoopSlot 0 0
; $ x10p verify no_slots.x10
; status 1: verify: Structure LoopSlot 0 0
places 1
func 1 0 none
LOOP 0 2
ENDL 0 1
RET 0
end
entry 0
