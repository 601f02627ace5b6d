; No jump goes out of a finish, nor to the instruction after its FINE. In function 0 it goes to the FINE.
;
; $ x10p bounds jump_out_of_a_finish.x10
; status 1: verify: Structure Jump 1 1
; $ x10p verify jump_out_of_a_finish.x10
; status 1: verify: Structure Jump 1 1
places 1
func 1 0 none int
FINB
JZ 0 2
FINE
RET 0
end
func 1 0 none int
FINB
JZ 0 3
FINE
RET 0
end
func 1 0 none
RET 0
end
entry 2
