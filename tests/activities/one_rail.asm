; Activities share what they are given: two of them write into one rail, and main, which made it, reads both bytes.
;
; $ x10p bounds one_rail.x10
; 0 6
; 1 15
; $ x10p run one_rail.x10
; 0: 41
; 0: 42
; takes 33 events
places 1
int 0
int 1
int 2
int 40
; puts 41 or 42 into byte 0 or 1
func 4 0 none rail int
  INTK 2 3
  INTK 3 1
  ADD 2 2 3
  ADD 2 2 1
  RSET 0 1 2 @out
out:
  RET 0
end
; main
func 3 0 none
  INTK 1 2
  RAIL 0 1 @out
  FINB
  INTK 1 0
  ASYNC 0 0
  INTK 1 1
  ASYNC 0 0
  FINE
  INTK 1 0
  RGET 2 0 1 @out
  PRINT 2
  INTK 1 1
  RGET 2 0 1 @out
  PRINT 2
out:
  RET 0
end
entry 1
