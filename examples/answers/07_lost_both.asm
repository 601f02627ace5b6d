; Exercise 7, second way: an object for each activity. Both are at work at the same time, and nobody writes where
; another one does. Behind FINE the two are added.
;
; $ x10p run 07_lost_both.x10
; 0: 2
places 1
class int
int 0
int 1
func 3 0 none obj:0
  GET 1 0 0
  INTK 2 1
  ADD 1 1 2
  PUT 0 1 0
  RET 0
end
func 3 0 none
  INTK 0 0
  NEW 1 0 0
  NEW 2 0 0
  FINB
  ASYNC 1 0
  ASYNC 2 0
  FINE
  GET 0 1 0
  GET 1 2 0
  ADD 0 0 1
  PRINT 0
  RET 0
end
entry 1
