; A place that is woken after it has reported. Main starts an activity at place 1, and a slow one at place 2. The first
; one ends soon, and place 1 has nobody left: it reports to the home of the finish, place 0, "one came from place 0".
; But the slow one at place 2 starts another activity at place 1, when that report has long arrived. So "nobody is left
; at place 1" was true when it was said, and isn't true for ever.
;
; The finish doesn't close on it. Place 2 reports "one came, one went to place 1", and the home compares: one went from
; place 2 to place 1, and place 1 has reported none from there. So it waits for the second report of place 1, which says
; that one came from place 0 and one from place 2.
;
; $ x10p run woken_after_report.x10
; 0: 9
; 1: 1
; 1: 2
; takes 90 events
places 3
int 1
int 2
int 9
func 1 0 none int
  PRINT 0
  RET 0
end
; works for thirty turns, and then starts the second activity of place 1
func 2 1 none
  LOOP 0 30
turn:
  ENDL 0 @turn
  INTK 0 1
  PLACEK 1 1
  ATA 0 1 0
  RET 0
end
; main
func 2 0 none
  INTK 0 0
  PLACEK 1 1
  FINB
  ATA 0 1 0
  PLACEK 1 2
  ATA 0 1 1
  FINE
  INTK 0 2
  PRINT 0
  RET 0
end
entry 2
