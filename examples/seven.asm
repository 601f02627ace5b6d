; The smallest program that says something: one function, at one place, that prints a number.
; seven.x10 beside it is its image, 64 bytes.
;
; $ x10p run seven.x10
; 0: 7
places 1
int 7
func 1 0 none
INTK 0 0
PRINT 0
RET 0
end
entry 0
