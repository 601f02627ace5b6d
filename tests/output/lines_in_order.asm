; The lines of one place come in the order of its steps, in every run.
;
; $ x10p run lines_in_order.x10
; 0: 1
; 0: 2
; 0: 1
; 3 times
; $ x10p run lines_in_order.x10
; 0: 1
; 0: 1
; 0: 2
; in any order
; $ x10p run lines_in_order.x10
; ..
; 0: 1
places 1
int 1
int 2
func 1 0 none
INTK 0 0
PRINT 0
INTK 0 1
PRINT 0
INTK 0 0
PRINT 0
RET 0
end
entry 0
