; Two activities count the same counter up at the same time, five times each, coming from two places. Each reads the
; counter, adds 1 and puts the sum back, and between two steps of one the other makes its own. So sums are lost. With
; an atomic region none is: ../atomic/by_reference.asm.
;
; $ x10p bounds lost_updates.x10
; 0 6
; 1 43
; 2 12
; $ x10p run lost_updates.x10
; 0: 5
; takes 209 events
places 3
class int
int 1
int 0
; adds 1 to the counter, which is here
func 4 0 none here:0
  GOPEN 1 0
  GET 2 1 0
  INTK 3 0
  ADD 2 2 3
  PUT 1 2 0
  RET 0
end
; counts five times
func 2 1 none gref:0
  HOME 1 0
  LOOP 0 5
again:
  AT 0 0 1 0
  ENDL 0 @again
  RET 0
end
; main
func 5 0 none
  INTK 0 1
  NEW 1 0 0
  GNEW 2 1
  PLACEK 3 1
  PLACEK 4 2
  FINB
  ATA 2 3 1
  ATA 2 4 1
  FINE
  GET 0 1 0
  PRINT 0
  RET 0
end
entry 2
