; A text that ends without its entry.
;
; $ x10p asm --explain no_entry.asm no_entry.x10
; status 1: asm: line 14 Order
; > no_entry.asm:14:1: Order: the text ends before it.
; > There is no line `entry N`, which names the function that a run begins with.
places 1
int 7
func 1 0 none
INTK 0 0
PRINT 0
RET 0
end
