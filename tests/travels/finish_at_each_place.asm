; At each place an activity opens a finish around two that it starts there. Numbers of finishes are each place's own.
;
; $ x10p bounds finish_at_each_place.x10
; 0 3
; 1 7
; 2 16
; $ x10p run finish_at_each_place.x10
; 0: 1
; 0: 1
; 0: 2
; 0: 3
; 1: 1
; 1: 1
; 1: 2
; 2: 1
; 2: 1
; 2: 2
; takes 76 events
places 3
int 1
int 2
int 3
func 1 0 none
  INTK 0 0
  PRINT 0
  RET 0
end
func 1 0 none
  FINB
  ASYNC 0 0
  ASYNC 0 0
  FINE
  INTK 0 1
  PRINT 0
  RET 0
end
; main
func 2 1 none
  HERE 0
  FINB
  LOOP 0 3
again:
  ATA 0 0 1
  NEXTP 0 0
  ENDL 0 @again
  FINE
  INTK 0 2
  PRINT 0
  RET 0
end
entry 2
