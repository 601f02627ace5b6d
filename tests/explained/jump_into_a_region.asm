; A jump into an atomic region.
;
; $ x10p check jump_into_a_region.asm
; Jump, function 0, instruction 1: JZ 0 4
; line 13: JZ 0 @inside
; It goes from outside into the atomic region that begins in line 14: ATOMB
; status 1: verify: Structure Jump 0 1
version 2
places 1
int 0
func 1 0 none
INTK 0 0
JZ 0 @inside
ATOMB
HERE 0
inside:
ATOME
RET 0
end
entry 0
