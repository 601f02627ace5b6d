; There is one function, number 0.
;
; $ x10p asm not_there.asm not_there.x10
; status 1: asm: line 12 Entry
places 1
int 7
func 1 0 none
INTK 0 0
PRINT 0
RET 0
end
entry 1
