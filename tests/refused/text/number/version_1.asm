; A text of version 1 has no such line.
;
; $ x10p asm version_1.asm version.x10
; status 1: asm: line 5 Number
version 1
places 1
