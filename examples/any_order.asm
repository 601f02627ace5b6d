; The order of activities isn't defined. Main starts three, and each prints its number. Every order of these lines is
; right, and a program must not count on one; `x10p run` takes turns in a fixed way, and so it shows the same order
; each time, but this is the way of `x10p run` and no promise of the machine. One thing is sure: 10 is the last line,
; because of the finish.
;
; $ x10p run any_order.x10
; 0: 1
; 0: 2
; 0: 3
; 0: 10
; in any order
places 1
int 1
int 2
int 3
int 10
func 1 0 none int
  PRINT 0
  RET 0
end
; main
func 1 0 none
  FINB
  INTK 0 0
  ASYNC 0 0
  INTK 0 1
  ASYNC 0 0
  INTK 0 2
  ASYNC 0 0
  FINE
  INTK 0 3
  PRINT 0
  RET 0
end
entry 1
