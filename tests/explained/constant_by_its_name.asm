; A constant that is named by a word.
;
; $ x10p asm --explain constant_by_its_name.asm constant_by_its_name.x10
; status 1: asm: line 12 Number
; > constant_by_its_name.asm:12:8: Number: INTK 0 seven
; >                                               ^^^^^
; > `seven` isn't a number; this word is the number of a constant.
; > Expected: INTK REGISTER INT.
places 1
int 7
func 1 0 none
INTK 0 seven
RET 0
end
entry 0
