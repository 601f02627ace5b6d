; A JMP, which always jumps, out of a finish.
;
; $ x10p bounds jmp_out_of_a_finish.x10
; status 1: verify: Structure Jump 0 1
; $ x10p verify jmp_out_of_a_finish.x10
; status 1: verify: Structure Jump 0 1
places 1
func 1 0 none
FINB
JMP 3
FINE
RET 0
end
entry 0
