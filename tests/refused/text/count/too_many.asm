; ADD has three operands.
;
; $ x10p asm too_many.asm too_many.x10
; status 1: asm: line 9 Count
places 1
int 7
func 1 0 none
INTK 0 0
ADD 0 0 0 0
RET 0
end
entry 0
