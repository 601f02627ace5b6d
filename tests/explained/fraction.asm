; A number that isn't whole.
;
; $ x10p asm --explain fraction.asm fraction.x10
; status 1: asm: line 10 Number
; > fraction.asm:10:5: Number: int 7.5
; >                                ^^^
; > `7.5` isn't a whole number, and there are no others.
; > Expected: int N, from -9223372036854775808 to 9223372036854775807.
places 1
int 7.5
func 1 0 none
INTK 0 0
RET 0
end
entry 0
