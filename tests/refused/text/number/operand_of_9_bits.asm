; a, b and c go up to 255.
;
; $ x10p asm operand_of_9_bits.asm operand_of_9_bits.x10
; status 1: asm: line 9 Number
places 1
int 7
func 1 0 none
INTK 0 0
ADD 0 0 256
RET 0
end
entry 0
