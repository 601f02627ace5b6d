; A function with a name, as other languages have it: the name is marked.
;
; $ x10p asm --explain function_with_a_name.asm function_with_a_name.x10
; status 1: asm: line 10 Word
; > function_with_a_name.asm:10:6: Word: func main 1 0 none
; >                                           ^^^^
; > `main` isn't the number of registers: functions have no names, but numbers, from 0 on.
; > Expected: func REGISTERS LOOPS RESULT PARAMETER .., where RESULT is none or a kind, and a PARAMETER is a kind.
places 1
func main 1 0 none
RET 0
end
entry 0
