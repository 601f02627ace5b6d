; A finish in which nothing is started is closed at once, here also inside another one that is still open.
;
; $ x10p bounds around_none.x10
; 0 11
; $ x10p run around_none.x10
; 0: 1
; 0: 2
; takes 11 events
places 1
int 1
int 2
func 1 0 none
  FINB
  FINE
  INTK 0 0
  PRINT 0
  FINB
  FINB
  FINE
  FINE
  INTK 0 1
  PRINT 0
  RET 0
end
entry 0
