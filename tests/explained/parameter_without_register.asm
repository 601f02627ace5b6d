; More parameters than registers: the first that has none.
;
; $ x10p asm --explain parameter_without_register.asm parameter_without_register.x10
; status 1: asm: line 9 Limit
; > parameter_without_register.asm:9:25: Limit: func 2 0 none int place text
; >                                                                     ^^^^
; > Each parameter takes a register: 3 parameters need `func 3` at least.
places 1
func 2 0 none int place text
RET 0
end
func 1 0 none
RET 0
end
entry 1
