; Main starts an activity at each place, its own among them, and waits for all.
;
; $ x10p bounds one_at_each_place.x10
; 0 5
; 1 23
; $ x10p run one_at_each_place.x10
; 0: 50
; 0: 0
; 0: 50
; 0: 50
; 0: 0
; 0: 0
; 0: 50
; 0: 50
; 0: 0
; 0: 0
; 0: -1
; takes 56 events
; $ x10p run one_at_each_place.x10 --places 2
; 0: 50
; 0: 0
; 0: 50
; 0: 0
; 0: 50
; 0: 0
; 0: -1
; 1: 50
; 1: 1
; 1: 50
; 1: 1
; takes 58 events
; $ x10p run one_at_each_place.x10 --places 3
; 0: 50
; 0: 0
; 0: 50
; 0: 0
; 0: -1
; 1: 50
; 1: 1
; 1: 50
; 1: 1
; 2: 50
; 2: 2
; takes 58 events
; $ x10p run one_at_each_place.x10 --places 5
; 0: 50
; 0: 0
; 0: -1
; 1: 50
; 1: 1
; 2: 50
; 2: 2
; 3: 50
; 3: 3
; 4: 50
; 4: 4
; takes 59 events
places 1
int 50
int -1
; prints what it was given and the place's number
func 2 0 none int
  PRINT 0
  HERE 1
  PLACEI 1 1
  PRINT 1
  RET 0
end
; main
func 4 1 none
  FINB
  PLACEK 1 0
  INTK 0 0
  LOOP 0 5
again:
  ATA 0 1 0
  NEXTP 1 1
  ENDL 0 @again
  FINE
  INTK 0 1
  PRINT 0
  RET 0
end
entry 1
