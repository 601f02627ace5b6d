; A kind of a class in a text without classes.
;
; $ x10p asm --explain no_class_at_all.asm no_class_at_all.x10
; status 1: asm: line 9 Number
; > no_class_at_all.asm:9:15: Number: func 1 0 none obj:0
; >                                                 ^^^^^
; > There is no class 0: the text has no class.
places 1
func 1 0 none obj:0
RET 0
end
func 1 0 none
RET 0
end
entry 1
