; A function that doesn't end with RET.
;
; $ x10p check no_return.asm
; Nesting, function 0, instruction 2: PRINT 0
; line 13: PRINT 0
; The last instruction of a function has to be RET; here it is PRINT.
; status 1: verify: Structure Nesting 0 2
places 1
int 7
func 1 0 none
HERE 0
PLACEI 0 0
PRINT 0
end
entry 0
