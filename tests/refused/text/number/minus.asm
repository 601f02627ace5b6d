; Only an int may have a minus sign.
;
; $ x10p asm minus.asm minus.x10
; status 1: asm: line 9 Number
places 1
int 7
func 1 0 none
INTK 0 0
PRINT -0
RET 0
end
entry 0
