; Doubles 1 twelve times.
;
; canonical
;
; $ x10p bounds loop_in_loop.x10
; 0 34
; $ x10p run loop_in_loop.x10
; 0: 4096
; takes 34 events
places 1
int 1
func 1 2 none
INTK 0 0
LOOP 0 3
LOOP 1 4
ADD 0 0 0
ENDL 1 3
ENDL 0 2
PRINT 0
RET 0
end
entry 0
