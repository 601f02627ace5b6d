; The repair of `second_turn_refused.asm`: each turn asks about its own reference. The list goes to place 1 as a copy,
; and the references in it are the same.
;
; $ x10p run second_turn.x10
; 0: 3
; 1: 4
places 2
class int
class gref:0 opt:1
int 3
int 4
; makes a counter here, and a reference to it
func 2 0 here:0 int
  NEW 1 0 0
  GNEW 1 1
  RET 1
end
; prints the counters that are here, of at most ten
func 4 1 none opt:1
  LOOP 0 10
turn:
  IFOBJ 1 0 @out
  GET 2 1 0
  GET 0 1 1
  IFHERE 2 @next
  GOPEN 3 2
  GET 3 3 0
  PRINT 3
next:
  ENDL 0 @turn
out:
  RET 0
end
; main makes a counter at each place and a list of both, and calls the function at each
func 6 0 none
  INTK 2 0
  CALL 0 2 0
  PLACEK 5 1
  INTK 2 1
  AT 3 2 5 0
  NULL 4 1
  NEW 1 3 1
  NEW 1 0 1
  CALL 0 1 1
  AT 0 1 5 1
  RET 0
end
entry 2
