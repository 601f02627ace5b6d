; A function with a name and the kinds of its parameters.
;
; $ x10p asm --explain function_with_a_name_and_kinds.asm function_with_a_name_and_kinds.x10
; status 1: asm: line 10 Word
; > function_with_a_name_and_kinds.asm:10:6: Word: func double 1 0 int int
; >                                                     ^^^^^^
; > `double` isn't the number of registers: functions have no names, but numbers, from 0 on.
; > Expected: func REGISTERS LOOPS RESULT PARAMETER .., where RESULT is none or a kind, and a PARAMETER is a kind.
places 1
func double 1 0 int int
RET 0
end
func 1 0 none
RET 0
end
entry 1
