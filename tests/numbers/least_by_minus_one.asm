; The least number by -1 is the least number again, with nothing left. Where a division goes to its
; label, its register keeps what it had.
;
; canonical
;
; $ x10p bounds least_by_minus_one.x10
; 0 11
; $ x10p run least_by_minus_one.x10
; 0: -9223372036854775808
; 0: 0
; 0: 0
; takes 10 events
places 1
int -9223372036854775808
int -1
int 0
func 3 0 none
INTK 0 0
INTK 1 1
DIV 2 0 1 9
PRINT 2
REM 2 0 1 9
PRINT 2
INTK 1 2
DIV 2 0 1 9
PRINT 0
PRINT 1
RET 0
end
entry 0
