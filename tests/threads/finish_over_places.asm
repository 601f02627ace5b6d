; Main goes to place 1 and back inside a finish. From there an activity goes to place 2, which the finish waits for too:
; main prints when that has ended.
;
; $ x10p run finish_over_places.x10 --threads
; 0: 9
; 2: 5
; 3 times
; $ x10p run finish_over_places.x10
; 0: 9
; 2: 5
places 3
int 5
int 9
func 1 0 none
  INTK 0 0
  PRINT 0
  RET 0
end
; at place 1
func 1 0 none
  PLACEK 0 2
  ATA 0 0 0
  RET 0
end
; main
func 1 0 none
  FINB
  PLACEK 0 1
  AT 0 0 0 1
  FINE
  INTK 0 1
  PRINT 0
  RET 0
end
entry 2
