; A number that is too great for its field.
;
; $ x10p asm --explain out_of_range.asm out_of_range.x10
; status 1: asm: line 11 Number
; > out_of_range.asm:11:6: Number: INTK 256 0
; >                                     ^^^
; > `256` is out of range: the number of a register is 0 to 63.
places 1
int 7
func 1 0 none
INTK 256 0
PRINT 0
RET 0
end
entry 0
