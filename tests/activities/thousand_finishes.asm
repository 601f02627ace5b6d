; A finish that is opened and closed a thousand times, each time around one activity, which adds 1 to the number in an
; object. As main waits for each, none of the sums is lost.
;
; $ x10p bounds thousand_finishes.x10
; 0 5
; 1 4006
; $ x10p run thousand_finishes.x10
; 0: 1000
; takes 14006 events
places 1
class int
int 0
int 1
func 3 0 none obj:0
  GET 1 0 0
  INTK 2 1
  ADD 1 1 2
  PUT 0 1 0
  RET 0
end
; main
func 2 1 none
  INTK 1 0
  NEW 0 1 0
  LOOP 0 1000
again:
  FINB
  ASYNC 0 0
  FINE
  ENDL 0 @again
  GET 1 0 0
  PRINT 1
  RET 0
end
entry 1
