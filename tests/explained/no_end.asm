; A function without its end.
;
; $ x10p asm --explain no_end.asm no_end.x10
; status 1: asm: line 14 Order
; > no_end.asm:14:1: Order: entry 0
; >                         ^^^^^
; > Function 0, begun in line 10, has no `end`.
places 1
int 7
func 1 0 none
INTK 0 0
PRINT 0
RET 0
entry 0
