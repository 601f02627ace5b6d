; A jump out of an atomic region.
;
; $ x10p check jump_out_of_a_region.asm
; Jump, function 0, instruction 2: JZ 0 4
; line 14: JZ 0 @out
; It goes out of an atomic region, which is left through its ATOME alone. The atomic region begins in line 13: ATOMB
; status 1: verify: Structure Jump 0 2
version 2
places 1
int 0
func 1 0 none
INTK 0 0
ATOMB
JZ 0 @out
ATOME
out:
RET 0
end
entry 0
