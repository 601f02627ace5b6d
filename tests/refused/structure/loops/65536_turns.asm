; A loop has 65,535 turns at most.
;
; $ x10p bounds 65536_turns.x10
; status 1: verify: Structure LoopSlot 0 0
; $ x10p verify 65536_turns.x10
; status 1: verify: Structure LoopSlot 0 0
places 1
int 0
func 1 3 none
LOOP 0 65536
ENDL 0 1
RET 0
end
entry 0
