; Exercise 3: the sum of the numbers from 1 to 100 that 3 or 5 divides. A number that 3 divides goes to `add` at once;
; one that neither divides goes to the ENDL, which is `continue`.
;
; $ x10p run 03_three_or_five.x10
; 0: 2418
places 1
int 0
int 1
int 3
int 5
func 6 1 none
; 0: the number, 1: the sum, 2 to 4: the constants 1, 3 and 5
  INTK 0 0
  INTK 1 0
  INTK 2 1
  INTK 3 2
  INTK 4 3
  LOOP 0 100
turn:
  ADD 0 0 2
  REM 5 0 3 @add
  JZ 5 @add
  REM 5 0 4 @add
  JZ 5 @add
  JMP @next
add:
  ADD 1 1 0
next:
  ENDL 0 @turn
  PRINT 1
  RET 0
end
entry 0
