; The activities of loop_inside.asm without their regions: their numbers come in turn.
;
; $ x10p run loop_without.x10
; 0: 11
; 0: 21
; 0: 12
; 0: 22
; 0: 13
; 0: 23
version 2
places 1
int 1
int 10
int 20
func 2 1 none int
  INTK 1 0
  LOOP 0 3
again:
  ADD 0 0 1
  PRINT 0
  ENDL 0 @again
  RET 0
end
func 1 0 none
  FINB
  INTK 0 1
  ASYNC 0 0
  INTK 0 2
  ASYNC 0 0
  FINE
  RET 0
end
entry 1
