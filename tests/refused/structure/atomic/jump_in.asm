; No jump goes into an atomic region, nor to its ATOME, which is inside. In function 0 the jump goes to the ATOMB,
; which is outside.
;
; $ x10p bounds jump_in.x10
; status 1: verify: Structure Jump 1 0
; $ x10p verify jump_in.x10
; status 1: verify: Structure Jump 1 0
version 2
places 1
func 1 0 none int
JZ 0 1
ATOMB
ATOME
RET 0
end
func 1 0 none int
JZ 0 2
ATOMB
ATOME
RET 0
end
func 1 0 none
RET 0
end
entry 2
