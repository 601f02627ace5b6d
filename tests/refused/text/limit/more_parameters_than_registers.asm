; Each parameter has a register.
;
; $ x10p asm more_parameters_than_registers.asm more_parameters_than_registers.x10
; status 1: asm: line 6 Limit
places 1
func 1 0 none int int
