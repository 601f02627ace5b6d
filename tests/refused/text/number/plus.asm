; A number has no plus sign.
;
; $ x10p asm plus.asm plus.x10
; status 1: asm: line 6 Number
places 1
int +7
