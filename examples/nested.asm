; A finish in a finish. `branch` opens one, and calls `plant` there, which starts two activities and
; returns without waiting for them. They belong to the finish in which `plant` was called, so branch
; prints 20 only when each of the two has printed 2. Meanwhile `slow` is at work, which main has
; started: the finish of branch doesn't wait for that, and 20 stands before its 1. Main's own finish
; waits for slow and branch, and so for all that branch waits for: 30 is the last line.
;
; An activity that waits at a FINE holds up no other one. In each round every activity takes a step,
; and the one that waits looks again whether it may go on.
;
; $ x10p run nested.x10
; 0: 2
; 0: 2
; 0: 20
; 0: 1
; 0: 30
; takes 231 events
places 1
int 1
int 2
int 20
int 30
; function 0, slow: prints 1, when a hundred turns of a loop are over
func 1 1 none
  INTK 0 0
  LOOP 0 100
turn:
  ENDL 0 @turn
  PRINT 0
  RET 0
end
; function 1: prints 2
func 1 0 none
  INTK 0 1
  PRINT 0
  RET 0
end
; function 2, plant: starts two activities
func 1 0 none
  ASYNC 0 1
  ASYNC 0 1
  RET 0
end
; function 3, branch: the inner finish
func 1 0 none
  FINB
  CALL 0 0 2
  FINE
  INTK 0 2
  PRINT 0
  RET 0
end
; function 4, main: the outer finish
func 1 0 none
  FINB
  ASYNC 0 0
  ASYNC 0 3
  FINE
  INTK 0 3
  PRINT 0
  RET 0
end
entry 4
