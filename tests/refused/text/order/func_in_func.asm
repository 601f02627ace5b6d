; A function ends before the next begins.
;
; $ x10p asm func_in_func.asm func_in_func.x10
; status 1: asm: line 8 Order
places 1
func 1 0 none
RET 0
func 1 0 none
