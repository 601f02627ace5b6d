; A label without its at sign.
;
; $ x10p asm --explain label_without_at.asm label_without_at.x10
; status 1: asm: line 13 Number
; > label_without_at.asm:13:5: Number: JMP out
; >                                        ^^^
; > `out` isn't a number; a label has an at sign: @out
; > Expected: JMP INSTRUCTION, where INSTRUCTION is a number, or @NAME of a label.
places 1
int 7
func 1 0 none
INTK 0 0
JMP out
PRINT 0
out:
RET 0
end
entry 0
