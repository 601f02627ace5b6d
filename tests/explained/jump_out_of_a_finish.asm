; A jump out of a finish.
;
; $ x10p check jump_out_of_a_finish.asm
; Jump, function 0, instruction 1: JMP 3
; line 12: JMP @out
; It goes out of a finish, which is left through its FINE alone. The finish begins in line 11: FINB
; status 1: verify: Structure Jump 0 1
places 1
int 7
func 1 0 none
FINB
JMP @out
FINE
out:
RET 0
end
entry 0
