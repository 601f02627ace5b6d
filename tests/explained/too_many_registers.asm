; More registers than a function may have.
;
; $ x10p asm --explain too_many_registers.asm too_many_registers.x10
; status 1: asm: line 9 Limit
; > too_many_registers.asm:9:6: Limit: func 65 0 none
; >                                         ^^
; > A function has 1 to 64 registers.
places 1
func 65 0 none
RET 0
end
entry 0
