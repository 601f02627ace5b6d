; A text that ends inside a function.
;
; $ x10p asm --explain no_end_at_all.asm no_end_at_all.x10
; status 1: asm: line 10 Order
; > no_end_at_all.asm:10:1: Order: the text ends before it.
; > Function 0, begun in line 8, has no `end`.
places 1
func 1 0 none
RET 0
