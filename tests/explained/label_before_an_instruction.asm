; A label and an instruction on one line.
;
; $ x10p asm --explain label_before_an_instruction.asm label_before_an_instruction.x10
; status 1: asm: line 14 Count
; > label_before_an_instruction.asm:14:6: Count: out: RET 0
; >                                                   ^^^
; > A label is alone on its line.
places 1
int 7
func 1 0 none
INTK 0 0
JMP @out
PRINT 0
out: RET 0
end
entry 0
