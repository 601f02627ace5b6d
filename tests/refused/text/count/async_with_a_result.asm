; ASYNC has two operands, the first argument and the function: there is no register for a result, as CALL has one.
;
; $ x10p asm async_with_a_result.asm async_with_a_result.x10
; status 1: asm: line 7 Count
places 1
func 1 0 none
ASYNC 0 0 0
RET 0
end
entry 0
