; Twenty activities are started at place 1, and each prints its number. They begin there in the order in which they
; were sent.
;
; $ x10p bounds many_to_one_place.x10
; 0 2
; 1 67
; $ x10p run many_to_one_place.x10
; 1: 1
; 1: 2
; 1: 3
; 1: 4
; 1: 5
; 1: 6
; 1: 7
; 1: 8
; 1: 9
; 1: 10
; 1: 11
; 1: 12
; 1: 13
; 1: 14
; 1: 15
; 1: 16
; 1: 17
; 1: 18
; 1: 19
; 1: 20
; takes 147 events
places 2
int 0
int 1
func 1 0 none int
  PRINT 0
  RET 0
end
; main
func 3 1 none
  INTK 0 0
  INTK 1 1
  PLACEK 2 1
  FINB
  LOOP 0 20
again:
  ADD 0 0 1
  ATA 0 2 0
  ENDL 0 @again
  FINE
  RET 0
end
entry 1
