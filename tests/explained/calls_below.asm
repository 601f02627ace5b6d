; A call of a function that is below.
;
; $ x10p check calls_below.asm
; CallOrder, function 0, instruction 0: CALL 0 0 1
; line 10: CALL 0 0 1
; Function 1 is below function 0, and CALL and AT lead only to functions above: put it first.
; status 1: verify: Structure CallOrder 0 0
places 1
func 1 0 none
CALL 0 0 1
RET 0
end
func 1 0 none
RET 0
end
entry 0
