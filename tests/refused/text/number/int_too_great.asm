; One more than the greatest number.
;
; $ x10p asm int_too_great.asm int_too_great.x10
; status 1: asm: line 6 Number
places 1
int 9223372036854775808
func 1 0 none
