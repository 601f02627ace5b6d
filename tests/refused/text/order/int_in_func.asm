; An int doesn't stand in a function.
;
; $ x10p asm int_in_func.asm int_in_func.x10
; status 1: asm: line 9 Order
places 1
int 7
func 1 0 none
INTK 0 0
int 7
RET 0
end
entry 0
