; A comment as other languages write it.
;
; $ x10p asm --explain comment_with_hash.asm comment_with_hash.x10
; status 1: asm: line 11 Word
; > comment_with_hash.asm:11:1: Word: # the constant
; >                                   ^
; > A comment begins with a semicolon, on a line of its own.
places 1
int 7
func 1 0 none
# the constant
INTK 0 0
RET 0
end
entry 0
