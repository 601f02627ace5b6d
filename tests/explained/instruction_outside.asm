; An instruction after the function's end.
;
; $ x10p asm --explain instruction_outside.asm instruction_outside.x10
; status 1: asm: line 14 Order
; > instruction_outside.asm:14:1: Order: PRINT 0
; >                                      ^^^^^
; > `PRINT` is in no function: the last one ended in line 13.
places 1
int 7
func 1 0 none
INTK 0 0
RET 0
end
PRINT 0
entry 0
