; A loop that turns too often.
;
; $ x10p check loop_turns_too_often.asm
; LoopSlot, function 0, instruction 0: LOOP 0 100000
; line 11: LOOP 0 100000
; A loop turns 1 to 65535 times; this one 100000.
; status 1: verify: Structure LoopSlot 0 0
places 1
int 7
func 1 1 none
LOOP 0 100000
turn:
HERE 0
ENDL 0 @turn
RET 0
end
entry 0
