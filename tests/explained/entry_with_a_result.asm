; An entry function that gives something.
;
; $ x10p asm --explain entry_with_a_result.asm entry_with_a_result.x10
; status 1: asm: line 14 Entry
; > entry_with_a_result.asm:14:7: Entry: entry 0
; >                                            ^
; > A run begins with a function that takes and gives nothing; function 0, begun in line 10, has a result.
places 1
int 7
func 1 0 int
INTK 0 0
RET 0
end
entry 0
