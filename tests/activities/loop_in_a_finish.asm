; A loop in a finish, in which nothing is started: a finish takes no turns, so FINB and FINE count once.
;
; canonical
;
; $ x10p bounds loop_in_a_finish.x10
; 0 7
; $ x10p run loop_in_a_finish.x10
; takes 7 events
places 1
func 1 1 none
FINB
LOOP 0 3
ENDL 0 2
FINE
RET 0
end
entry 0
