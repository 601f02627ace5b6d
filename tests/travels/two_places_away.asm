; Main starts an activity at place 1, which starts one at place 2 and ends at once. Place 1 reports that it has none
; left, while the one at place 2 still works: main's finish waits for that one too.
;
; $ x10p bounds two_places_away.x10
; 0 34
; 1 5
; 2 7
; $ x10p run two_places_away.x10
; 0: 3
; 1: 1
; 2: 2
; takes 84 events
places 3
int 2
int 1
int 3
; works long
func 1 1 none
  LOOP 0 30
again:
  ENDL 0 @again
  INTK 0 0
  PRINT 0
  RET 0
end
; starts it at place 2
func 1 0 none
  PLACEK 0 2
  ATA 0 0 0
  INTK 0 1
  PRINT 0
  RET 0
end
; main
func 1 0 none
  FINB
  PLACEK 0 1
  ATA 0 0 1
  FINE
  INTK 0 2
  PRINT 0
  RET 0
end
entry 2
