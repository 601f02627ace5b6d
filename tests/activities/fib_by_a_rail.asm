; The Fibonacci number of 9, by activities that share one rail: the activity with byte i leaves its number there, and
; the two that it starts leave theirs in the bytes 2i + 1 and 2i + 2.
;
; $ x10p bounds fib_by_a_rail.x10
; 0 22
; 1 10
; $ x10p run fib_by_a_rail.x10
; 0: 34
; takes 3270 events
places 1
int 0
int 1
int 2
int 9
int 511
; puts a Fibonacci number into a byte of a rail
func 10 0 none int rail int
  INTK 3 2
  LT 4 0 3
  JZ 4 @more
  RSET 1 2 0 @out
  RET 0
more:
; number, rail and byte for the two, in registers 3 to 5 and 6 to 8
  INTK 9 1
  SUB 3 0 9
  SUB 6 3 9
  MOVE 4 1
  MOVE 7 1
  ADD 5 2 2
  ADD 5 5 9
  ADD 8 5 9
  FINB
  ASYNC 3 0
  ASYNC 6 0
  FINE
  RGET 3 1 5 @out
  RGET 6 1 8 @out
  ADD 3 3 6
  RSET 1 2 3 @out
out:
  RET 0
end
; main
func 3 0 none
  INTK 0 4
  RAIL 1 0 @out
  INTK 0 3
  INTK 2 0
  FINB
  ASYNC 0 0
  FINE
  RGET 0 1 2 @out
  PRINT 0
out:
  RET 0
end
entry 1
