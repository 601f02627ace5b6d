; A label has a letter.
;
; $ x10p asm empty.asm empty.x10
; status 1: asm: line 9 Label
places 1
int 7
func 1 0 none
INTK 0 0
JMP @
RET 0
end
entry 0
