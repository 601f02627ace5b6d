; Exercise 6: 1 before 2, and 3 before 4. This order is the one of the rounds: the second activity begins three rounds
; after the first, which has ended by then. Others are as right.
;
; $ x10p run 06_orders.x10
; 0: 1
; 0: 2
; 0: 3
; 0: 4
places 1
int 1
int 2
int 3
int 4
func 2 0 none int int
  PRINT 0
  PRINT 1
  RET 0
end
func 2 0 none
  INTK 0 0
  INTK 1 1
  ASYNC 0 0
  INTK 0 2
  INTK 1 3
  ASYNC 0 0
  RET 0
end
entry 1
