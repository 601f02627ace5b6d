; Two activities at place 0 each wait at a finish, for activities at the same place 1. Each finish closes for itself.
;
; $ x10p bounds two_finishes_at_once.x10
; 0 23
; 1 2
; 2 7
; 3 7
; 4 7
; $ x10p run two_finishes_at_once.x10
; 0: 2
; 0: 1
; 0: 3
; 1: 2
; 1: 1
; takes 101 events
places 2
int 1
int 2
int 3
func 2 1 none int
  LOOP 0 20
again:
  ENDL 0 @again
  PRINT 0
  RET 0
end
func 1 0 none int
  PRINT 0
  RET 0
end
func 2 0 none
  PLACEK 0 1
  INTK 1 0
  FINB
  ATA 1 0 0
  FINE
  PRINT 1
  RET 0
end
func 2 0 none
  PLACEK 0 1
  INTK 1 1
  FINB
  ATA 1 0 1
  FINE
  PRINT 1
  RET 0
end
; main
func 1 0 none
  FINB
  ASYNC 0 2
  ASYNC 0 3
  FINE
  INTK 0 2
  PRINT 0
  RET 0
end
entry 4
