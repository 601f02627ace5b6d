; While main is away, an activity at place 0 goes on. Main's stay there waits, and its steps are made at place 1.
;
; $ x10p bounds others_go_on_while_away.x10
; 0 22
; 1 7
; 2 13
; $ x10p run others_go_on_while_away.x10
; 0: 1
; 0: 2
; 0: 8
; 0: 3
; 0: 4
; 0: 5
; 0: 6
; 1: 7
; takes 44 events
places 2
int 0
int 1
int 7
int 8
; prints 1 to 6
func 2 1 none
  INTK 0 0
  INTK 1 1
  LOOP 0 6
again:
  ADD 0 0 1
  PRINT 0
  ENDL 0 @again
  RET 0
end
; prints 7 when a loop is over
func 1 1 none
  LOOP 0 3
again:
  ENDL 0 @again
  INTK 0 2
  PRINT 0
  RET 0
end
; main
func 2 0 none
  ASYNC 0 0
  PLACEK 0 1
  AT 0 0 0 1
  INTK 0 3
  PRINT 0
  RET 0
end
entry 2
