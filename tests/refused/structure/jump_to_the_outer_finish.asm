; A jump out of the inner of two finishes stays in the outer one, and is refused all the same. In function 0 it stays
; in the inner one.
;
; $ x10p bounds jump_to_the_outer_finish.x10
; status 1: verify: Structure Jump 1 2
; $ x10p verify jump_to_the_outer_finish.x10
; status 1: verify: Structure Jump 1 2
places 1
func 1 0 none
FINB
FINB
JMP 3
FINE
FINE
RET 0
end
func 1 0 none
FINB
FINB
JMP 4
FINE
FINE
RET 0
end
entry 0
