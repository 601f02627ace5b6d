; Exercise 4: a to the power n, for n from 0 to 63. The loop is left where n is used up.
;
; $ x10p run 04_power.x10
; 0: 81
; 0: 1024
; 0: 1
places 1
int 0
int 1
int 2
int 3
int 4
int 7
int 10
func 4 1 int int int
  INTK 2 1
  INTK 3 1
  LOOP 0 63
turn:
  JZ 1 @done
  MUL 3 3 0
  SUB 1 1 2
  ENDL 0 @turn
done:
  RET 3
end
; main
func 2 0 none
  INTK 0 3
  INTK 1 4
  CALL 0 0 0
  PRINT 0
  INTK 0 2
  INTK 1 6
  CALL 0 0 0
  PRINT 0
  INTK 0 5
  INTK 1 0
  CALL 0 0 0
  PRINT 0
  RET 0
end
entry 1
