; Exercise 7, first way: a finish around each activity. The second one begins when the first has ended.
;
; $ x10p run 07_lost.x10
; 0: 2
places 1
class int
int 0
int 1
func 3 0 none obj:0
  GET 1 0 0
  INTK 2 1
  ADD 1 1 2
  PUT 0 1 0
  RET 0
end
func 2 0 none
  INTK 0 0
  NEW 1 0 0
  FINB
  ASYNC 1 0
  FINE
  FINB
  ASYNC 1 0
  FINE
  GET 0 1 0
  PRINT 0
  RET 0
end
entry 1
