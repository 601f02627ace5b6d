; A comment needs a line of its own: behind an instruction it is more words.
;
; $ x10p asm comment_behind.asm other.x10
; status 1: asm: line 7 Count
places 1
func 1 0 none
RET 0 ; the end
end
entry 0
