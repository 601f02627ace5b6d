; Exercise 2: with a hundred the run takes as many steps as the bound, since the JZ never jumps.
;
; $ x10p bounds 02_down_hundred.x10
; 0 305
; $ x10p run 02_down_hundred.x10
; 0: 0
; takes 305 events
places 1
int 100
int 1
func 2 1 none
  INTK 0 0
  INTK 1 1
  LOOP 0 100
turn:
  JZ 0 @done
  SUB 0 0 1
  ENDL 0 @turn
done:
  PRINT 0
  RET 0
end
entry 0
