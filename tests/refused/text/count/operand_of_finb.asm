; FINB has no operand.
;
; $ x10p asm operand_of_finb.asm operand_of_finb.x10
; status 1: asm: line 7 Count
places 1
func 1 0 none
FINB 0
FINE
RET 0
end
entry 0
