; At the other place a finish of its own waits for what was started from there. Main's finish waits for both.
;
; $ x10p bounds finish_two_places_away.x10
; 0 16
; 1 8
; 2 7
; $ x10p run finish_two_places_away.x10
; 0: 9
; 1: 8
; 2: 7
; 2: 7
; takes 89 events
places 3
int 7
int 8
int 9
func 1 1 none
  LOOP 0 12
again:
  ENDL 0 @again
  INTK 0 0
  PRINT 0
  RET 0
end
; an activity with a finish of its own
func 1 0 none
  PLACEK 0 2
  FINB
  ATA 0 0 0
  ATA 0 0 0
  FINE
  INTK 0 1
  PRINT 0
  RET 0
end
; main
func 1 0 none
  FINB
  PLACEK 0 1
  ATA 0 0 1
  FINE
  INTK 0 2
  PRINT 0
  RET 0
end
entry 2
