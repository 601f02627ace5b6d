; The label of a DIV is a jump too.
;
; $ x10p bounds division_out.x10
; status 1: verify: Structure Jump 0 3
; $ x10p verify division_out.x10
; status 1: verify: Structure Jump 0 3
version 2
places 1
int 1
func 2 0 none
INTK 0 0
INTK 1 0
ATOMB
DIV 0 0 1 5
ATOME
RET 0
end
entry 0
