; It ends with status 0.
;
; $ x10p run other_status.x10
; 0: 7
; status 2
places 1
int 7
func 1 0 none
INTK 0 0
PRINT 0
RET 0
end
entry 0
