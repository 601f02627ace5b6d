; A jump into a loop.
;
; $ x10p check jump_into_a_loop.asm
; Jump, function 0, instruction 0: JMP 3
; line 11: JMP @inside
; It goes from outside into the loop that begins in line 12: LOOP 0 3
; status 1: verify: Structure Jump 0 0
places 1
int 7
func 1 1 none
JMP @inside
LOOP 0 3
turn:
HERE 0
inside:
HERE 0
ENDL 0 @turn
RET 0
end
entry 0
