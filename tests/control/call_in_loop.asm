; Doubles 3 five times, by a function.
;
; canonical
;
; $ x10p bounds call_in_loop.x10
; 0 2
; 1 24
; $ x10p run call_in_loop.x10
; 0: 96
; takes 24 events
places 1
int 3
func 1 0 int int
ADD 0 0 0
RET 0
end
func 1 1 none
INTK 0 0
LOOP 0 5
CALL 0 0 0
ENDL 0 2
PRINT 0
RET 0
end
entry 1
