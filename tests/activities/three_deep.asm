; Three finishes in one another, each around one activity. The outermost activity takes longest, and yet the inner
; finishes are closed before it ends: a finish waits for its own activities, and not for those of the finish around it.
; Activities print 1 to 3, and main 10, 20 and 30 as it leaves the outermost, middle and innermost finish.
;
; $ x10p bounds three_deep.x10
; 0 3004
; 1 22
; $ x10p run three_deep.x10
; 0: 3
; 0: 30
; 0: 2
; 0: 20
; 0: 1
; 0: 10
; takes 3178 events
places 1
int 0
int 1
int 2
int 3
int 10
int 20
int 30
int 50
int 200
int 400
; waits so many turns, and prints a number
func 3 1 none int int
  INTK 2 1
  LOOP 0 1000
turn:
  JZ 1 @print
  SUB 1 1 2
  ENDL 0 @turn
print:
  PRINT 0
  RET 0
end
; main
func 2 0 none
  FINB
  INTK 0 1
  INTK 1 9
  ASYNC 0 0
  FINB
  INTK 0 2
  INTK 1 8
  ASYNC 0 0
  FINB
  INTK 0 3
  INTK 1 7
  ASYNC 0 0
  FINE
  INTK 0 6
  PRINT 0
  FINE
  INTK 0 5
  PRINT 0
  FINE
  INTK 0 4
  PRINT 0
  RET 0
end
entry 1
