; A register for a result where there is none.
;
; $ x10p check result_where_there_is_none.asm
; Result, function 0, instruction 1: RET 1
; line 12: RET 1
; RET has no result here, so its first number is 0; it is 1.
; status 1: verify: Result 0 1
places 1
int 7
func 2 0 none
COUNT 1
RET 1
end
entry 0
