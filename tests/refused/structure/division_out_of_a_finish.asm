; The jump that DIV makes for a divisor 0 goes out of a finish; in function 0 it goes to the FINE.
;
; $ x10p bounds division_out_of_a_finish.x10
; status 1: verify: Structure Jump 1 1
; $ x10p verify division_out_of_a_finish.x10
; status 1: verify: Structure Jump 1 1
places 1
func 1 0 none int
FINB
DIV 0 0 0 2
FINE
RET 0
end
func 1 0 none int
FINB
DIV 0 0 0 3
FINE
RET 0
end
func 1 0 none
RET 0
end
entry 2
