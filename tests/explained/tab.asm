; A tab in place of a space.
;
; $ x10p asm --explain tab.asm tab.x10
; status 1: asm: line 11 Word
; > tab.asm:11:1: Word: INTK	0 0
; >                     ^^^^	^
; > Words are separated by spaces, not tabs.
places 1
int 7
func 1 0 none
INTK	0 0
PRINT 0
RET 0
end
entry 0
