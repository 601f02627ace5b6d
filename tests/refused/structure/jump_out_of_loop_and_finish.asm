; A jump may leave a loop, also one in a finish as in function 0, but not the loop and the finish.
;
; $ x10p bounds jump_out_of_loop_and_finish.x10
; status 1: verify: Structure Jump 1 2
; $ x10p verify jump_out_of_loop_and_finish.x10
; status 1: verify: Structure Jump 1 2
places 1
func 1 1 none
FINB
LOOP 0 2
JMP 4
ENDL 0 2
FINE
RET 0
end
func 1 1 none
FINB
LOOP 0 2
JMP 5
ENDL 0 2
FINE
RET 0
end
entry 0
