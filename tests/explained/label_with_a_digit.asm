; A label whose name begins with a digit.
;
; $ x10p asm --explain label_with_a_digit.asm label_with_a_digit.x10
; status 1: asm: line 12 Label
; > label_with_a_digit.asm:12:1: Label: 2nd:
; >                                     ^^^^
; > The name of a label doesn't begin with a digit.
places 1
int 7
func 1 0 none
INTK 0 0
2nd:
RET 0
end
entry 0
