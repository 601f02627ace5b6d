; A comment where an operand is missing.
;
; $ x10p asm --explain comment_for_an_operand.asm comment_for_an_operand.x10
; status 1: asm: line 11 Number
; > comment_for_an_operand.asm:11:8: Number: INTK 0 ; seven
; >                                                 ^
; > A comment needs a line of its own.
places 1
int 7
func 1 0 none
INTK 0 ; seven
RET 0
end
entry 0
