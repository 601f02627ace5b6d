; No jump goes from one atomic region into another.
;
; $ x10p bounds jump_to_another.x10
; status 1: verify: Structure Jump 0 1
; $ x10p verify jump_to_another.x10
; status 1: verify: Structure Jump 0 1
version 2
places 1
func 1 0 none
ATOMB
JMP 4
ATOME
ATOMB
ATOME
RET 0
end
entry 0
