; Three calls of a function without result, whose loop has the slot of the caller's loop: each call
; has loop slots of its own.
;
; canonical
;
; $ x10p bounds loops_in_calls.x10
; 0 7
; 1 29
; $ x10p run loops_in_calls.x10
; 0: 6
; 0: 6
; 0: 6
; 0: 6
; 0: 6
; 0: 6
; takes 29 events
places 1
int 6
func 1 1 none
INTK 0 0
LOOP 0 2
PRINT 0
ENDL 0 2
RET 0
end
func 1 1 none
LOOP 0 3
CALL 0 0 0
ENDL 0 1
RET 0
end
entry 1
