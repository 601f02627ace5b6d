; ASYNC counts one step, whatever it starts, and a finish multiplies nothing. So main's bound is 10, where each of the
; three activities takes up to 203 steps of its own.
;
; $ x10p verify bounds_are_each_ones_own.x10
; verified 2 functions, entry bound 10
; $ x10p bounds bounds_are_each_ones_own.x10
; 0 203
; 1 10
; $ x10p run bounds_are_each_ones_own.x10
; 0: 1
; 0: 1
; 0: 1
; takes 821 events
places 1
int 1
func 1 1 none
  LOOP 0 100
turn:
  INTK 0 0
  ENDL 0 @turn
  PRINT 0
  RET 0
end
; main
func 1 1 none
  FINB
  LOOP 0 3
start:
  ASYNC 0 0
  ENDL 0 @start
  FINE
  RET 0
end
entry 1
