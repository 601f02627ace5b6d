; A class that is named by a word.
;
; $ x10p asm --explain class_by_its_name.asm class_by_its_name.x10
; status 1: asm: line 10 Number
; > class_by_its_name.asm:10:15: Number: func 1 0 none obj:counter
; >                                                    ^^^^^^^^^^^
; > `obj:counter` doesn't name its class by a number, as in obj:0.
places 1
class int
func 1 0 none obj:counter
RET 0
end
func 1 0 none
RET 0
end
entry 1
