; Instructions stand in functions.
;
; $ x10p asm instruction_first.asm instruction_first.x10
; status 1: asm: line 5 Order
RET 0
