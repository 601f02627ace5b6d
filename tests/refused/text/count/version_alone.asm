; The version has a number.
;
; $ x10p asm version_alone.asm version.x10
; status 1: asm: line 5 Count
version
