; Classes come before ints.
;
; $ x10p asm class_after_int.asm class_after_int.x10
; status 1: asm: line 7 Order
places 1
int 1
class int
