; Each activity starts two at the next place, four levels deep. The 16 of the last level print 1.
;
; $ x10p bounds tree_over_places.x10
; 0 11
; 1 8
; $ x10p run tree_over_places.x10
; 0: 2
; {{16 * 1: 1}}
; takes 255 events
; $ x10p run tree_over_places.x10 --places 5
; 0: 2
; {{16 * 4: 1}}
; takes 255 events
places 3
int 1
int 4
int 2
func 3 0 none int
  JZ 0 @leaf
  INTK 1 0
  SUB 0 0 1
  HERE 1
  NEXTP 1 1
  ATA 0 1 0
  ATA 0 1 0
  RET 0
leaf:
  INTK 0 0
  PRINT 0
  RET 0
end
; main
func 2 0 none
  FINB
  INTK 0 1
  HERE 1
  ATA 0 1 0
  FINE
  INTK 0 2
  PRINT 0
  RET 0
end
entry 1
