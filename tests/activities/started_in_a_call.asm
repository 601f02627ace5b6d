; What a called function starts belongs to the finish in which the function was called: it returns without waiting,
; main prints 2, and waits at its FINE for the activity, which prints 1.
;
; $ x10p bounds started_in_a_call.x10
; 0 104
; 1 2
; 2 4
; 3 12
; $ x10p run started_in_a_call.x10
; 0: 2
; 0: 1
; 0: 3
; takes 216 events
places 1
int 1
int 2
int 3
; an activity
func 1 1 none
  INTK 0 0
  LOOP 0 100
wait:
  ENDL 0 @wait
  PRINT 0
  RET 0
end
; starts it
func 1 0 none
  ASYNC 0 0
  RET 0
end
; calls the one that starts it
func 1 0 none
  CALL 0 0 1
  RET 0
end
; main
func 1 0 none
  FINB
  CALL 0 0 2
  INTK 0 1
  PRINT 0
  FINE
  INTK 0 2
  PRINT 0
  RET 0
end
entry 3
