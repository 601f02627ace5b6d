; A function has 16 parameters at most, so an activity begins with 16 arguments at most.
;
; $ x10p asm 17_parameters.asm 17_parameters.x10
; status 1: asm: line 6 Limit
places 1
func 64 0 none int int int int int int int int int int int int int int int int int
