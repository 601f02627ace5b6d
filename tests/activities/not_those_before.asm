; A finish doesn't wait for what was started before it: main leaves it at once and prints 2, and the activity prints 1
; later.
;
; $ x10p run not_those_before.x10
; 0: 2
; 0: 1
; takes 110 events
places 1
int 1
int 2
func 1 1 none
  INTK 0 0
  LOOP 0 100
wait:
  ENDL 0 @wait
  PRINT 0
  RET 0
end
; main
func 1 0 none
  ASYNC 0 0
  FINB
  FINE
  INTK 0 1
  PRINT 0
  RET 0
end
entry 1
