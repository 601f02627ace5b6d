; One less than the least number.
;
; $ x10p asm int_too_small.asm int_too_small.x10
; status 1: asm: line 6 Number
places 1
int -9223372036854775809
