; A module has one function at least.
;
; $ x10p asm no_function.asm no_function.x10
; status 1: asm: line 6 Limit
places 1
entry 0
