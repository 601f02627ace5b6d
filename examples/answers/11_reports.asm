; Exercise 11: place 0 needs the reports of both other places.
;
; $ x10p run 11_reports.x10
; takes 15 events
places 3
func 1 0 none
  RET 0
end
; at place 1: starts an activity at place 2, and ends
func 1 0 none
  PLACEK 0 2
  ATA 0 0 0
  RET 0
end
; main, at place 0
func 1 0 none
  FINB
  PLACEK 0 1
  ATA 0 0 1
  FINE
  RET 0
end
entry 2
