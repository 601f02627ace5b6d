; There is no version 3.
;
; $ x10p asm version_3.asm version.x10
; status 1: asm: line 5 Number
version 3
