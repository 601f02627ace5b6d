; Place 1 has no activity left and reports so, and gets another one afterwards, three times. The finish closes when
; the last has ended.
;
; $ x10p bounds woken_again.x10
; 0 2
; 1 49
; $ x10p run woken_again.x10
; 0: 8
; 1: 1
; 1: 2
; 1: 4
; takes 61 events
places 2
int 1
func 1 0 none int
  PRINT 0
  RET 0
end
; main
func 3 2 none
  INTK 0 0
  PLACEK 1 1
  FINB
  LOOP 0 3
turn:
  ATA 0 1 0
  LOOP 1 10
pause:
  ENDL 1 @pause
  ADD 0 0 0
  ENDL 0 @turn
  FINE
  PRINT 0
  RET 0
end
entry 1
