; An operand is missing.
;
; $ x10p asm --explain too_few_operands.asm too_few_operands.x10
; status 1: asm: line 12 Count
; > too_few_operands.asm:12:8: Count: INTK 0
; >                                          ^
; > A word is missing: the number of a constant.
; > Expected: INTK REGISTER INT.
places 1
int 7
func 1 0 none
INTK 0
PRINT 0
RET 0
end
entry 0
