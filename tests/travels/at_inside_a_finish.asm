; Main goes to place 1 from inside a finish, and starts an activity there. It belongs to main's finish: main comes
; back at once, and waits at FINE.
;
; $ x10p bounds at_inside_a_finish.x10
; 0 29
; 1 4
; 2 13
; $ x10p run at_inside_a_finish.x10
; 0: 5
; 0: 6
; 1: 3
; 1: 4
; takes 72 events
places 2
int 4
int 3
int 5
int 6
func 1 1 none
  LOOP 0 25
again:
  ENDL 0 @again
  INTK 0 0
  PRINT 0
  RET 0
end
func 1 0 none
  ASYNC 0 0
  INTK 0 1
  PRINT 0
  RET 0
end
; main
func 1 0 none
  FINB
  PLACEK 0 1
  AT 0 0 0 1
  INTK 0 2
  PRINT 0
  FINE
  INTK 0 3
  PRINT 0
  RET 0
end
entry 2
