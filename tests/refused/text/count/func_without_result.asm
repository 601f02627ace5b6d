; A function says what it gives.
;
; $ x10p asm func_without_result.asm func_without_result.x10
; status 1: asm: line 6 Count
places 1
func 1 0
