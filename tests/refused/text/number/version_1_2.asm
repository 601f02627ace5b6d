; One version. Its number is wrong, which comes before the second one.
;
; $ x10p asm version_1_2.asm version.x10
; status 1: asm: line 5 Number
version 1 2
