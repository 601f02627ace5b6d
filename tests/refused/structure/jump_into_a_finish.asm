; No jump goes into a finish, nor to its FINE, which stands inside. In function 0 the jump goes to the FINB, which
; stands outside.
;
; $ x10p bounds jump_into_a_finish.x10
; status 1: verify: Structure Jump 1 0
; $ x10p verify jump_into_a_finish.x10
; status 1: verify: Structure Jump 1 0
places 1
func 1 0 none int
JZ 0 1
FINB
FINE
RET 0
end
func 1 0 none int
JZ 0 2
FINB
FINE
RET 0
end
func 1 0 none
RET 0
end
entry 2
