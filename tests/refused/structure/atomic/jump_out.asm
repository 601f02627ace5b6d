; No jump leaves an atomic region, not even to the instruction after its ATOME.
;
; $ x10p bounds jump_out.x10
; status 1: verify: Structure Jump 0 1
; $ x10p verify jump_out.x10
; status 1: verify: Structure Jump 0 1
version 2
places 1
func 1 0 none
ATOMB
JMP 3
ATOME
RET 0
end
entry 0
