; A function has one instruction at least.
;
; $ x10p asm no_instruction.asm no_instruction.x10
; status 1: asm: line 7 Limit
places 1
func 1 0 none
end
