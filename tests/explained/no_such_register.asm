; A register that the function hasn't got.
;
; $ x10p check no_such_register.asm
; Index, function 0, instruction 0: INTK 1 0
; line 11: INTK 1 0
; There is no register 1: the function has 1 register, number 0. With `func 2` it has 2.
; status 1: verify: Index 0 0
places 1
int 7
func 1 0 none
INTK 1 0
PRINT 1
RET 0
end
entry 0
