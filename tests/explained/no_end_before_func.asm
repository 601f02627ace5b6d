; A function without its end, before the next one.
;
; $ x10p asm --explain no_end_before_func.asm no_end_before_func.x10
; status 1: asm: line 11 Order
; > no_end_before_func.asm:11:1: Order: func 1 0 none
; >                                     ^^^^
; > Function 0, begun in line 9, has no `end`.
places 1
func 1 0 none
RET 0
func 1 0 none
CALL 0 0 0
RET 0
end
entry 1
