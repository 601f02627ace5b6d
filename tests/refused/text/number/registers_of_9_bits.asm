; 256 doesn't go into the field of the registers.
;
; $ x10p asm registers_of_9_bits.asm registers_of_9_bits.x10
; status 1: asm: line 6 Number
places 1
func 256 0 none
