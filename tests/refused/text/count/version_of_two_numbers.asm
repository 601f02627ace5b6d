; One number.
;
; $ x10p asm version_of_two_numbers.asm version.x10
; status 1: asm: line 5 Count
version 2 2
