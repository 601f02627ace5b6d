; A loop has one turn at least.
;
; $ x10p bounds no_turns.x10
; status 1: verify: Structure LoopSlot 0 0
; $ x10p verify no_turns.x10
; status 1: verify: Structure LoopSlot 0 0
places 1
func 1 1 none
LOOP 0 0
ENDL 0 1
RET 0
end
entry 0
