; By these schedules no event is idle: main's INTK, FINB, ASYNC, FINE and RET, and the other's two steps, whatever comes first.
;
; $ x10p run limit.x10 --seed 3
; 0: 7
; takes 7 events
; $ x10p run limit.x10 --schedule newest
; 0: 7
; takes 7 events
places 1
int 7
func 1 0 none int
  PRINT 0
  RET 0
end
func 1 0 none
  INTK 0 0
  FINB
  ASYNC 0 0
  FINE
  RET 0
end
entry 1
