; A number has a digit.
;
; $ x10p asm minus_alone.asm minus_alone.x10
; status 1: asm: line 6 Number
places 1
int -
