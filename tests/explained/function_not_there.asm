; A call of a function that isn't there.
;
; $ x10p check function_not_there.asm
; CallOrder, function 0, instruction 0: CALL 0 0 7
; line 11: CALL 0 0 7
; There is no function 7: the module has 1 function, number 0.
; status 1: verify: Structure CallOrder 0 0
places 1
int 7
func 1 0 none
CALL 0 0 7
RET 0
end
entry 0
