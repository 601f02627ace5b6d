; A number in hexadecimal digits.
;
; $ x10p asm --explain hexadecimal.asm hexadecimal.x10
; status 1: asm: line 10 Number
; > hexadecimal.asm:10:5: Number: int 0x7
; >                                   ^^^
; > `0x7` isn't a decimal number, and there are no others.
; > Expected: int N, from -9223372036854775808 to 9223372036854775807.
places 1
int 0x7
func 1 0 none
INTK 0 0
RET 0
end
entry 0
