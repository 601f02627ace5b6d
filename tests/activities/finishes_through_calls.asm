; Finishes three deep, of three functions that call one another: each starts an activity, calls the next function, and
; waits. Activities print 1, 2 and 3, and the functions 10, 20 and 30 when they have waited. All activities take
; equally long, so the one that was started last ends last, and the innermost finish keeps the others open.
;
; $ x10p bounds finishes_through_calls.x10
; 0 53
; 1 7
; 2 15
; 3 23
; $ x10p run finishes_through_calls.x10
; 0: 1
; 0: 2
; 0: 3
; 0: 30
; 0: 20
; 0: 10
; takes 235 events
places 1
int 1
int 2
int 3
int 10
int 20
int 30
; an activity that prints its number
func 1 1 none int
  LOOP 0 50
wait:
  ENDL 0 @wait
  PRINT 0
  RET 0
end
; the innermost finish
func 1 0 none
  FINB
  INTK 0 2
  ASYNC 0 0
  FINE
  INTK 0 5
  PRINT 0
  RET 0
end
; the middle one
func 1 0 none
  FINB
  INTK 0 1
  ASYNC 0 0
  CALL 0 0 1
  FINE
  INTK 0 4
  PRINT 0
  RET 0
end
; main, with the outermost one
func 1 0 none
  FINB
  INTK 0 0
  ASYNC 0 0
  CALL 0 0 2
  FINE
  INTK 0 3
  PRINT 0
  RET 0
end
entry 3
