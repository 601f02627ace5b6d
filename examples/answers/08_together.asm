; Exercise 8: the finish holds the loop. All four activities are at work at the same time.
;
; $ x10p run 08_together.x10
; 0: 10
; takes 158 events
places 1
int 5
int 1
func 3 1 none rail int
  LOOP 0 20
turn:
  ENDL 0 @turn
  RSET 0 1 1 @out
out:
  RET 0
end
func 6 1 none
  INTK 2 0
  RAIL 0 2 @out
  INTK 3 1
  SUB 1 3 3
  FINB
  LOOP 0 4
start:
  ADD 1 1 3
  ASYNC 0 0
  ENDL 0 @start
  FINE
; the sum of the bytes 0 to 4
  SUB 1 3 3
  SUB 4 3 3
  LOOP 0 5
add:
  RGET 5 0 1 @out
  ADD 4 4 5
  ADD 1 1 3
  ENDL 0 @add
  PRINT 4
out:
  RET 0
end
entry 1
