; In any order, but not with another number.
;
; $ x10p run other_number.x10
; 0: 8
; 0: 7
; in any order
places 1
int 7
int 9
func 1 0 none
INTK 0 0
PRINT 0
INTK 0 1
PRINT 0
RET 0
end
entry 0
