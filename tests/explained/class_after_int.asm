; A class after a constant.
;
; $ x10p asm --explain class_after_int.asm class_after_int.x10
; status 1: asm: line 10 Order
; > class_after_int.asm:10:1: Order: class int
; >                                  ^^^^^
; > `class` has to come before the first `int`, which is in line 9.
places 1
int 7
class int
func 1 0 none
INTK 0 0
RET 0
end
entry 0
