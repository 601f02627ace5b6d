; A label where a number stands.
;
; $ x10p asm --explain label_for_a_number.asm label_for_a_number.x10
; status 1: asm: line 13 Number
; > label_for_a_number.asm:13:8: Number: INTK 0 @seven
; >                                             ^^^^^^
; > `@seven` is a label, and this word is the number of a constant.
; > Expected: INTK REGISTER INT.
places 1
int 7
func 1 0 none
seven:
INTK 0 @seven
PRINT 0
RET 0
end
entry 0
