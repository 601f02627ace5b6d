; Three calls deep the activity goes away, and each caller goes on with its own registers.
;
; $ x10p bounds deep_calls_then_away.x10
; 0 3
; 1 6
; 2 10
; 3 14
; 4 18
; $ x10p run deep_calls_then_away.x10
; 0: 1111
; takes 23 events
places 2
int 1000
int 10
int 100
int 1
func 2 0 int int
  INTK 1 0
  ADD 0 0 1
  RET 0
end
func 2 0 int int
  PLACEK 1 1
  AT 0 0 1 0
  RET 0
end
func 3 0 int int
  INTK 1 1
  CALL 2 0 1
  ADD 0 2 1
  RET 0
end
func 3 0 int int
  INTK 1 2
  CALL 2 0 2
  ADD 0 2 1
  RET 0
end
; main
func 2 0 none
  INTK 0 3
  CALL 1 0 3
  PRINT 1
  RET 0
end
entry 4
