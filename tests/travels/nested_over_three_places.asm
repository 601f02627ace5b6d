; Three finishes, each inside the one before and at the next place. They close from the inside: 3 at place 2, 2 at
; place 1, 1 at place 0.
;
; $ x10p bounds nested_over_three_places.x10
; 0 10
; 1 8
; 2 8
; 3 8
; $ x10p run nested_over_three_places.x10
; 0: 4
; 0: 1
; 1: 2
; 2: 3
; takes 88 events
; $ x10p run nested_over_three_places.x10 --places 5
; 0: 1
; 1: 2
; 2: 3
; 3: 4
; takes 88 events
places 3
int 4
int 3
int 2
int 1
func 1 1 none
  LOOP 0 6
again:
  ENDL 0 @again
  INTK 0 0
  PRINT 0
  RET 0
end
func 2 0 none
  HERE 0
  NEXTP 0 0
  FINB
  ATA 0 0 0
  FINE
  INTK 0 1
  PRINT 0
  RET 0
end
func 2 0 none
  HERE 0
  NEXTP 0 0
  FINB
  ATA 0 0 1
  FINE
  INTK 0 2
  PRINT 0
  RET 0
end
; main
func 2 0 none
  HERE 0
  NEXTP 0 0
  FINB
  ATA 0 0 2
  FINE
  INTK 0 3
  PRINT 0
  RET 0
end
entry 3
