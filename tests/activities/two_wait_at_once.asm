; Two activities wait at the same time, each at a finish of its own. The one that was opened later is closed first:
; which finish goes on depends on what it waits for alone.
;
; $ x10p bounds two_wait_at_once.x10
; 0 3004
; 1 5
; 2 9
; $ x10p run two_wait_at_once.x10
; 0: 2
; 0: 20
; 0: 1
; 0: 10
; takes 1538 events
places 1
int 0
int 1
int 2
int 10
int 20
int 50
int 200
; waits so many turns, and prints a number
func 3 1 none int int
  INTK 2 1
  LOOP 0 1000
turn:
  JZ 1 @print
  SUB 1 1 2
  ENDL 0 @turn
print:
  PRINT 0
  RET 0
end
; starts one that does so, waits for it, and prints another number
func 3 0 none int int int
  FINB
  ASYNC 0 0
  FINE
  PRINT 2
  RET 0
end
; main
func 3 0 none
  INTK 0 1
  INTK 1 6
  INTK 2 3
  ASYNC 0 1
  INTK 0 2
  INTK 1 5
  INTK 2 4
  ASYNC 0 1
  RET 0
end
entry 2
