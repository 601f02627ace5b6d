; There is one class, number 0.
;
; $ x10p asm class_not_there.asm class_not_there.x10
; status 1: asm: line 6 Number
places 1
class obj:1
