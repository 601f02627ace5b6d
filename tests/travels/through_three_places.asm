; From place 0 to 1 and from there to 2. The activity has a stay that waits at 0 and at 1 while it works at 2, and
; each result comes back to the place that asked.
;
; $ x10p bounds through_three_places.x10
; 0 3
; 1 10
; 2 15
; $ x10p run through_three_places.x10
; 0: 40
; 1: 20
; 1: 300
; 2: 30
; takes 31 events
places 3
int 300
int 30
int 40
int 20
; adds 100
func 1 0 int int
  PRINT 0
  INTK 0 0
  RET 0
end
; asks place 2
func 3 0 int int
  PRINT 0
  PLACEK 1 2
  INTK 0 1
  AT 2 0 1 0
  PRINT 2
  INTK 0 2
  RET 0
end
; main
func 3 0 none
  INTK 0 3
  PLACEK 1 1
  AT 2 0 1 1
  PRINT 2
  RET 0
end
entry 2
