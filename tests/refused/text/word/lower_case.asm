; Names of instructions are in capitals.
;
; $ x10p asm lower_case.asm lower_case.x10
; status 1: asm: line 9 Word
places 1
int 7
func 1 0 none
INTK 0 0
add 0 0 0
RET 0
end
entry 0
