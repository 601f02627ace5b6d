; An operand is a number. A third one is missing too: Number comes before Count.
;
; $ x10p asm operand.asm operand.x10
; status 1: asm: line 9 Number
places 1
int 7
func 1 0 none
INTK 0 0
ADD 0 x
RET 0
end
entry 0
