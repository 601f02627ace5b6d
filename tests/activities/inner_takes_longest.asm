; Three finishes in one another, and the innermost activity takes longest: the others have ended when main leaves the
; innermost finish, and then it leaves all three at once.
;
; $ x10p run inner_takes_longest.x10
; 0: 1
; 0: 2
; 0: 3
; 0: 30
; 0: 20
; 0: 10
; takes 3192 events
places 1
int 0
int 1
int 2
int 3
int 10
int 20
int 30
int 50
int 200
int 400
; waits so many turns, and prints a number
func 3 1 none int int
  INTK 2 1
  LOOP 0 1000
turn:
  JZ 1 @print
  SUB 1 1 2
  ENDL 0 @turn
print:
  PRINT 0
  RET 0
end
; main
func 2 0 none
  FINB
  INTK 0 1
  INTK 1 7
  ASYNC 0 0
  FINB
  INTK 0 2
  INTK 1 8
  ASYNC 0 0
  FINB
  INTK 0 3
  INTK 1 9
  ASYNC 0 0
  FINE
  INTK 0 6
  PRINT 0
  FINE
  INTK 0 5
  PRINT 0
  FINE
  INTK 0 4
  PRINT 0
  RET 0
end
entry 1
