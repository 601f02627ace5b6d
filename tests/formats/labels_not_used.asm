; Labels that nothing goes to: at the first instruction, in the middle, and behind the last one.
;
; same image as ../../examples/seven.asm
;
; $ x10p run labels_not_used.x10
; 0: 7
places 1
int 7
func 1 0 none
a:
INTK 0 0
_b1:
PRINT 0
RET 0
c:
end
entry 0
