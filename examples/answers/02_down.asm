; Exercise 2: the bound takes a hundred turns as made, the run makes five and a part of one.
;
; $ x10p bounds 02_down.x10
; 0 305
; $ x10p run 02_down.x10
; 0: 0
; takes 21 events
places 1
int 5
int 1
func 2 1 none
  INTK 0 0
  INTK 1 1
  LOOP 0 100
turn:
  JZ 0 @done
  SUB 0 0 1
  ENDL 0 @turn
done:
  PRINT 0
  RET 0
end
entry 0
