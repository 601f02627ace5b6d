; Two activities add 1 to the same byte at the same time: both read it before either writes, so one sum is lost, and
; the byte is 1. One after the other, each in a finish of its own, they add 2.
;
; $ x10p bounds lost_update.x10
; 0 6
; 1 18
; $ x10p run lost_update.x10
; 0: 1
; 0: 3
; takes 60 events
places 1
int 0
int 1
func 4 0 none rail
  INTK 1 0
  INTK 2 1
  RGET 3 0 1 @out
  ADD 3 3 2
  RSET 0 1 3 @out
out:
  RET 0
end
; main
func 3 0 none
  INTK 1 1
  RAIL 0 1 @out
  INTK 1 0
  FINB
  ASYNC 0 0
  ASYNC 0 0
  FINE
  RGET 2 0 1 @out
  PRINT 2
  FINB
  ASYNC 0 0
  FINE
  FINB
  ASYNC 0 0
  FINE
  RGET 2 0 1 @out
  PRINT 2
out:
  RET 0
end
entry 1
