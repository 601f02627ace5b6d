; ATOMB has no operand.
;
; $ x10p asm operand_of_atomb.asm it.x10
; status 1: asm: line 8 Count
version 2
places 1
func 1 0 none
ATOMB 0
ATOME
RET 0
end
entry 0
