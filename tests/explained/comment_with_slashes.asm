; A comment as other languages write it, behind an instruction.
;
; $ x10p asm --explain comment_with_slashes.asm comment_with_slashes.x10
; status 1: asm: line 11 Count
; > comment_with_slashes.asm:11:10: Count: INTK 0 0 // seven
; >                                                 ^^
; > A comment begins with a semicolon, on a line of its own.
places 1
int 7
func 1 0 none
INTK 0 0 // seven
RET 0
end
entry 0
