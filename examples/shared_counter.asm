; A counter that two activities count up, three times each. To add 1 takes a GET, an ADD and a PUT. If the other activity
; came in between, it would read the same number, and one of the two sums would be lost. From ATOMB to ATOME, X10's
; `atomic`, no other activity of the place makes a step. Without these two lines `x10p run` prints 3.
;
; ATOMB and ATOME are in images of version 2, and so the text begins with `version 2`.
;
; $ x10p run shared_counter.x10
; 0: 6
; takes 108 events
; $ x10p run shared_counter.x10 --threads
; 0: 6
version 2
places 1
class int
int 0
int 1
; counts up three times
func 3 1 none obj:0
  INTK 2 1
  LOOP 0 3
again:
  ATOMB
  GET 1 0 0
  ADD 1 1 2
  PUT 0 1 0
  ATOME
  ENDL 0 @again
  RET 0
end
; main
func 2 0 none
  INTK 0 0
  NEW 1 0 0
  FINB
  ASYNC 1 0
  ASYNC 1 0
  FINE
  GET 0 1 0
  PRINT 0
  RET 0
end
entry 1
