; Exercise 1: a loop by hand.
;
; $ x10p bounds 01_by_hand.x10
; 0 15
; $ x10p run 01_by_hand.x10
; 0: 96
; 0: 108
; takes 15 events
places 1
int 1
int 2
func 2 1 none
  INTK 0 0
  INTK 1 1
  LOOP 0 3
turn:
  MUL 0 0 1
  ADD 1 1 0
  ENDL 0 @turn
  PRINT 0
  PRINT 1
  RET 0
end
entry 0
