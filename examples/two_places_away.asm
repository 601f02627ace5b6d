; A finish waits for activities two places away. Main starts a foreman at place 1, and the foreman starts two workers
; at place 2 and ends. Now place 1 has nobody left, and reports this to the home of the finish, place 0. The report
; also says that place 1 sent two activities to place 2, of which no report has come: so the finish doesn't close. It
; closes when the workers have ended and place 2 has reported too.
;
; $ x10p run two_places_away.x10
; 0: all workers are done
; 1: the foreman goes
; 2: 1
; 2: 2
; takes 122 events
places 3
int 1
int 2
text "the foreman goes"
text "all workers are done"
; works for thirty turns
func 1 1 none int
  LOOP 0 30
again:
  ENDL 0 @again
  PRINT 0
  RET 0
end
func 2 0 none
  PLACEK 1 2
  INTK 0 0
  ATA 0 1 0
  INTK 0 1
  ATA 0 1 0
  TEXTK 0 0
  PRINT 0
  RET 0
end
; main
func 1 0 none
  PLACEK 0 1
  FINB
  ATA 0 0 1
  FINE
  TEXTK 0 1
  PRINT 0
  RET 0
end
entry 2
