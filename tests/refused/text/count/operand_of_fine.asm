; FINE has no operand.
;
; $ x10p asm operand_of_fine.asm operand_of_fine.x10
; status 1: asm: line 8 Count
places 1
func 1 0 none
FINB
FINE 0
RET 0
end
entry 0
