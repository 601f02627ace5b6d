; A loop's turns stay with the stay that waits. The function at the other place has loop slots of its own.
;
; $ x10p bounds loops_across_an_at.x10
; 0 9
; 1 98
; $ x10p run loops_across_an_at.x10
; 0: 12
; 0: 24
; takes 186 events
places 2
int 1
int 0
; adds 1 three times
func 2 1 int int
  INTK 1 0
  LOOP 0 3
again:
  ADD 0 0 1
  ENDL 0 @again
  RET 0
end
; main
func 2 2 none
  INTK 0 1
  PLACEK 1 1
  LOOP 0 2
outer:
  LOOP 1 4
inner:
  AT 0 0 1 0
  ENDL 1 @inner
  PRINT 0
  ENDL 0 @outer
  RET 0
end
entry 1
