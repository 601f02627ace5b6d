; An int has its number.
;
; $ x10p asm int_alone.asm int_alone.x10
; status 1: asm: line 6 Count
places 1
int
