; An activity that works at place 1 opens a finish in each turn of a loop, and starts an activity at place 0 in it.
;
; $ x10p bounds finish_in_a_loop_away.x10
; 0 2
; 1 28
; 2 4
; $ x10p run finish_in_a_loop_away.x10
; 0: 1
; 0: 2
; 0: 3
; 0: 4
; 1: 1
; 1: 2
; 1: 3
; 1: 4
; takes 54 events
places 2
int 0
int 1
func 1 0 none int
  PRINT 0
  RET 0
end
func 3 1 none place
  INTK 1 0
  INTK 2 1
  LOOP 0 4
again:
  ADD 1 1 2
  FINB
  ATA 1 0 0
  FINE
  PRINT 1
  ENDL 0 @again
  RET 0
end
; main
func 2 0 none
  HERE 0
  PLACEK 1 1
  ATA 0 1 1
  RET 0
end
entry 2
