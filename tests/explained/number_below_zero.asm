; A negative number as an operand.
;
; $ x10p asm --explain number_below_zero.asm number_below_zero.x10
; status 1: asm: line 12 Number
; > number_below_zero.asm:12:8: Number: INTK 0 -1
; >                                            ^^
; > `-1` isn't the number of a constant: a number below 0 is a line `int`, and INTK puts it into a register.
; > Expected: INTK REGISTER INT.
places 1
int 7
func 1 0 none
INTK 0 -1
RET 0
end
entry 0
