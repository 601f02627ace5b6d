; The fault of two events is `limit`.
;
; $ x10p run other_fault.x10 --limit 2
; 0: 7
; status 2: stop: Memory
places 1
int 7
func 1 0 none
INTK 0 0
PRINT 0
RET 0
end
entry 0
