; A letter, and a word too many: Number comes before Count.
;
; $ x10p asm letter.asm letter.x10
; status 1: asm: line 6 Number
places 1
int x 8
