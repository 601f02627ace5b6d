; A label of another function.
;
; $ x10p asm --explain label_of_another_function.asm label_of_another_function.x10
; status 1: asm: line 10 Label
; > label_of_another_function.asm:10:5: Label: JMP @out
; >                                                ^^^^
; > Function 0 has no label `out`. The one in line 14 is of function 1: a label is known in its own function alone.
places 1
func 1 0 none
JMP @out
RET 0
end
func 1 0 none
out:
RET 0
end
entry 0
