; The greatest common divisor, in a function that leaves its loop where nothing is left over. Its
; bound counts all 92 turns; the run makes three.
;
; canonical
;
; $ x10p bounds loop_left_by_a_label.x10
; 0 370
; 1 2
; 2 377
; $ x10p run loop_left_by_a_label.x10
; 0: 21
; takes 22 events
places 1
int 1071
int 462
func 3 1 int int int
LOOP 0 92
REM 2 0 1 5
MOVE 0 1
MOVE 1 2
ENDL 0 1
RET 0
end
func 1 0 none int
PRINT 0
RET 0
end
func 2 0 none
INTK 0 0
INTK 1 1
CALL 0 0 0
CALL 0 0 1
RET 0
end
entry 2
