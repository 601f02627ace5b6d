; An entry function that takes something.
;
; $ x10p asm --explain entry_with_a_parameter.asm entry_with_a_parameter.x10
; status 1: asm: line 12 Entry
; > entry_with_a_parameter.asm:12:7: Entry: entry 0
; >                                               ^
; > A run begins with a function that takes and gives nothing; function 0, begun in line 9, has a parameter.
places 1
func 1 0 none int
RET 0
end
entry 0
