; A called function opens a finish in each turn of its loop, around an activity that prints the turn's number, and
; prints 0 when it has waited. Main calls it twice, the second time inside a finish of its own.
;
; $ x10p bounds finish_in_a_loop_in_a_call.x10
; 0 2
; 1 23
; 2 53
; $ x10p run finish_in_a_loop_in_a_call.x10
; 0: 1
; 0: 0
; 0: 2
; 0: 0
; 0: 3
; 0: 0
; 0: 1
; 0: 0
; 0: 2
; 0: 0
; 0: 3
; 0: 0
; 0: 9
; takes 77 events
places 1
int 0
int 1
int 9
func 1 0 none int
  PRINT 0
  RET 0
end
func 3 1 none
  INTK 0 0
  INTK 1 0
  INTK 2 1
  LOOP 0 3
turn:
  ADD 0 0 2
  FINB
  ASYNC 0 0
  FINE
  PRINT 1
  ENDL 0 @turn
  RET 0
end
; main
func 1 0 none
  CALL 0 0 1
  FINB
  CALL 0 0 1
  FINE
  INTK 0 2
  PRINT 0
  RET 0
end
entry 2
