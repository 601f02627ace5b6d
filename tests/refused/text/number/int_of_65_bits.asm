; 2^64 + 1 isn't 1.
;
; $ x10p asm int_of_65_bits.asm int_of_65_bits.x10
; status 1: asm: line 6 Number
places 1
int 18446744073709551617
