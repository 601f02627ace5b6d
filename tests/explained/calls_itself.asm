; A function that calls itself.
;
; $ x10p verify --explain calls_itself.x10
; status 1: verify: Structure CallOrder 0 0
; > CallOrder, function 0, instruction 0: CALL 0 0 0
; > Function 0 calls itself, and CALL and AT lead only to functions above. ASYNC and ATA may start any.
places 1
func 1 0 none
CALL 0 0 0
RET 0
end
entry 0
