; Ten finishes one after the other, each around an activity at the next place: the numbers at each place rise.
;
; $ x10p bounds finish_after_finish.x10
; 0 2
; 1 66
; $ x10p run finish_after_finish.x10
; 0: 0
; 0: 3
; 0: 6
; 0: 9
; 0: 10
; 1: 1
; 1: 4
; 1: 7
; 2: 2
; 2: 5
; 2: 8
; takes 116 events
; $ x10p run finish_after_finish.x10 --places 5
; 0: 0
; 0: 5
; 0: 10
; 1: 1
; 1: 6
; 2: 2
; 2: 7
; 3: 3
; 3: 8
; 4: 4
; 4: 9
; takes 116 events
places 3
int 0
int 1
func 1 0 none int
  PRINT 0
  RET 0
end
; main
func 4 1 none
  INTK 0 0
  INTK 1 1
  HERE 2
  LOOP 0 10
again:
  FINB
  ATA 0 2 0
  FINE
  ADD 0 0 1
  NEXTP 2 2
  ENDL 0 @again
  PRINT 0
  RET 0
end
entry 1
