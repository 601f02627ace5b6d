; The inner finish waits for what was started in it alone. The slow activity at place 1 was started before it, so 2 is
; printed at place 0 long before it ends; the outer finish waits for both.
;
; $ x10p bounds inner_does_not_wait_for_outer.x10
; 0 31
; 1 3
; 2 12
; $ x10p run inner_does_not_wait_for_outer.x10
; 0: 2
; 0: 3
; 1: 100
; 1: 1
; 1: 2
; 1: 3
; 1: 4
; 1: 5
; 1: 6
; 1: 7
; 1: 8
; 1: 9
; takes 75 events
places 2
int 0
int 1
int 100
int 2
int 3
func 2 1 none
  INTK 0 0
  INTK 1 1
  LOOP 0 9
again:
  ADD 0 0 1
  PRINT 0
  ENDL 0 @again
  RET 0
end
func 1 0 none
  INTK 0 2
  PRINT 0
  RET 0
end
; main
func 2 0 none
  PLACEK 0 1
  FINB
  ATA 0 0 0
  FINB
  ATA 0 0 1
  FINE
  INTK 1 3
  PRINT 1
  FINE
  INTK 1 4
  PRINT 1
  RET 0
end
entry 2
