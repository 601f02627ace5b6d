; A comment behind an instruction.
;
; $ x10p asm --explain comment_behind.asm comment_behind.x10
; status 1: asm: line 11 Count
; > comment_behind.asm:11:10: Count: INTK 0 0 ; seven
; >                                           ^
; > A comment needs a line of its own.
places 1
int 7
func 1 0 none
INTK 0 0 ; seven
PRINT 0
RET 0
end
entry 0
