; A line for each int.
;
; $ x10p asm two_ints.asm two_ints.x10
; status 1: asm: line 6 Count
places 1
int 7 8
