; A function without an instruction.
;
; $ x10p asm --explain no_instruction.asm no_instruction.x10
; status 1: asm: line 10 Limit
; > no_instruction.asm:10:1: Limit: end
; >                                 ^^^
; > Function 0 has no instruction; RET at least has to be there.
places 1
func 1 0 none
end
entry 0
