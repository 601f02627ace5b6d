; A function has 64 registers at most.
;
; $ x10p asm 65_registers.asm 65_registers.x10
; status 1: asm: line 7 Limit
places 1
int 7
func 65 0 none
INTK 0 0
PRINT 0
RET 0
end
entry 0
