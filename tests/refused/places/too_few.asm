; This module asks for two places at least.
;
; $ x10p run too_few.x10
; 0: 7
; $ x10p run too_few.x10 --places 64
; 0: 7
; $ x10p run too_few.x10 --places 1
; status 1: places
places 2
int 7
func 1 0 none
INTK 0 0
PRINT 0
RET 0
end
entry 0
