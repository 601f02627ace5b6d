; A label stands once in a function. The later line is at fault.
;
; $ x10p asm twice.asm twice.x10
; status 1: asm: line 11 Label
places 1
int 7
func 1 0 none
INTK 0 0
a:
PRINT 0
a:
RET 0
end
entry 0
