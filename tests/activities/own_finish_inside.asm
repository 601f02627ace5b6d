; An activity waits at a finish of its own. Main's finish waits for that activity, and so for the one that it waits
; for: they print 1 and 2, and main 3.
;
; $ x10p bounds own_finish_inside.x10
; 0 104
; 1 6
; 2 6
; $ x10p run own_finish_inside.x10
; 0: 1
; 0: 2
; 0: 3
; takes 330 events
places 1
int 1
int 2
int 3
func 1 1 none
  INTK 0 0
  LOOP 0 100
wait:
  ENDL 0 @wait
  PRINT 0
  RET 0
end
func 1 0 none
  FINB
  ASYNC 0 0
  FINE
  INTK 0 1
  PRINT 0
  RET 0
end
; main
func 1 0 none
  FINB
  ASYNC 0 1
  FINE
  INTK 0 2
  PRINT 0
  RET 0
end
entry 2
