; The repair of `moved_refused.asm`: behind MOVE the reference is asked for its home again. Each place prints the one
; counter that it has.
;
; $ x10p run moved.x10
; 0: 3
; 1: 4
places 2
class int
int 3
int 4
; makes a counter here, and a reference to it
func 2 0 here:0 int
  NEW 1 0 0
  GNEW 1 1
  RET 1
end
; prints the counters that are here
func 4 0 none gref:0 gref:0
  IFHERE 0 @second
  GOPEN 2 0
  GET 3 2 0
  PRINT 3
second:
  MOVE 0 1
  IFHERE 0 @out
  GOPEN 2 0
  GET 3 2 0
  PRINT 3
out:
  RET 0
end
; main makes a counter at each place, and calls the function at each
func 5 0 none
  INTK 3 0
  CALL 0 3 0
  PLACEK 4 1
  INTK 3 1
  AT 1 3 4 0
  CALL 0 0 1
  AT 0 0 4 1
  RET 0
end
entry 2
