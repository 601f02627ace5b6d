; The listing has no such space.
;
; canonical
;
; $ x10p run not_canonical.x10
; 0: 7
places 1
int 7
func 1 0 none
INTK  0 0
PRINT 0
RET 0
end
entry 0
