; ATA starts an activity at place 1, and the finish waits for it: 2 is printed before 3, though they are lines of two
; places.
;
; $ x10p bounds started_elsewhere.x10
; 0 2
; 1 8
; $ x10p run started_elsewhere.x10
; 0: 3
; 1: 2
; takes 13 events
places 2
int 2
int 3
func 1 0 none int
  PRINT 0
  RET 0
end
; main
func 2 0 none
  INTK 0 0
  PLACEK 1 1
  FINB
  ATA 0 1 0
  FINE
  INTK 0 1
  PRINT 0
  RET 0
end
entry 1
