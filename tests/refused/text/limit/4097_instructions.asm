; A function has 4,096 instructions at most.
;
; $ x10p asm 4097_instructions.asm 4097_instructions.x10
; status 1: asm: line 4103 Limit
places 1
func 1 0 none
{{4097 * RET 0}}
end
entry 0
