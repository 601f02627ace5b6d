; A loop that turns no times.
;
; $ x10p check loop_without_turns.asm
; LoopSlot, function 0, instruction 0: LOOP 0 0
; line 11: LOOP 0 0
; A loop turns 1 to 65535 times; this one 0.
; status 1: verify: Structure LoopSlot 0 0
places 1
int 7
func 1 1 none
LOOP 0 0
turn:
HERE 0
ENDL 0 @turn
RET 0
end
entry 0
