; A function that is called inside a finish opens one of its own. That one doesn't wait for the activity that main has
; started before the call, which takes 200 turns and prints 1; main's own finish does.
;
; $ x10p bounds finish_in_a_call.x10
; 0 204
; 1 3
; 2 6
; 3 15
; $ x10p run finish_in_a_call.x10
; 0: 2
; 0: 20
; 0: 30
; 0: 1
; 0: 40
; takes 417 events
places 1
int 1
int 2
int 20
int 30
int 40
; a slow activity
func 1 1 none
  INTK 0 0
  LOOP 0 200
wait:
  ENDL 0 @wait
  PRINT 0
  RET 0
end
; a quick one
func 1 0 none
  INTK 0 1
  PRINT 0
  RET 0
end
; waits for the quick one
func 1 0 none
  FINB
  ASYNC 0 1
  FINE
  INTK 0 2
  PRINT 0
  RET 0
end
; main
func 1 0 none
  FINB
  ASYNC 0 0
  CALL 0 0 2
  INTK 0 3
  PRINT 0
  FINE
  INTK 0 4
  PRINT 0
  RET 0
end
entry 3
