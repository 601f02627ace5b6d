; A function whose line doesn't say what it gives.
;
; $ x10p asm --explain no_result_named.asm no_result_named.x10
; status 1: asm: line 10 Count
; > no_result_named.asm:10:10: Count: func 1 0
; >                                            ^
; > A word is missing: the kind of the result, or none.
; > Expected: func REGISTERS LOOPS RESULT PARAMETER .., where RESULT is none or a kind, and a PARAMETER is a kind.
places 1
func 1 0
RET 0
end
entry 0
