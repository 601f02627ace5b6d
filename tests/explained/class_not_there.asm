; A kind of a class that isn't there.
;
; $ x10p asm --explain class_not_there.asm class_not_there.x10
; status 1: asm: line 10 Number
; > class_not_there.asm:10:19: Number: func 2 0 none int obj:1
; >                                                      ^^^^^
; > There is no class 1: the text has 1 class, number 0.
places 1
class int obj:0
func 2 0 none int obj:1
PRINT 0
RET 0
end
entry 0
