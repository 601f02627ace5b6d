; The quote at the end is missing.
;
; $ x10p asm open.asm open.x10
; status 1: asm: line 7 Text
places 1
int 7
text "a
func 1 0 none
INTK 0 0
PRINT 0
RET 0
end
entry 0
