; Two objects that name one another. From each one gets to the other and back again, and what is put into
; one along the way is found there from the other side.
;
; $ x10p bounds cycle_of_two.x10
; 0 39
; $ x10p run cycle_of_two.x10
; 0: 1
; 0: 2
; 0: 1
; 0: 2
; 0: 9
; takes 39 events
places 1
class int opt:0
int 1
int 2
int 9
func 4 1 none
  INTK 0 0
  NULL 1 0
  NEW 2 0 0
  INTK 0 1
  MOVE 1 2
  NEW 3 0 0
  PUT 2 3 1
; four steps round the cycle
  LOOP 0 4
round:
  GET 0 2 0
  PRINT 0
  GET 1 2 1
  IFOBJ 2 1 @end
  ENDL 0 @round
; what is put into the first, two steps away from it, is there
  GET 1 2 1
  IFOBJ 2 1 @end
  GET 1 2 1
  IFOBJ 3 1 @end
  INTK 0 2
  PUT 3 0 0
  GET 1 2 1
  IFOBJ 2 1 @end
  GET 0 2 0
  PRINT 0
end:
  RET 0
end
entry 0
