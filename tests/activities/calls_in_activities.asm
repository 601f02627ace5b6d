; Activities call functions while main waits: each has callers of its own. The square of the sum of two numbers, once
; of 1 and 2 and once of 3 and 4.
;
; $ x10p bounds calls_in_activities.x10
; 0 2
; 1 5
; 2 8
; 3 11
; $ x10p run calls_in_activities.x10
; 0: 9
; 0: 49
; 0: 5
; takes 35 events
places 1
int 1
int 2
int 3
int 4
int 5
func 1 0 int int
  MUL 0 0 0
  RET 0
end
func 2 0 int int int
  ADD 0 0 1
  CALL 0 0 0
  RET 0
end
; an activity
func 3 0 none int int
  CALL 2 0 1
  PRINT 2
  RET 0
end
; main
func 2 0 none
  FINB
  INTK 0 0
  INTK 1 1
  ASYNC 0 2
  INTK 0 2
  INTK 1 3
  ASYNC 0 2
  FINE
  INTK 0 4
  PRINT 0
  RET 0
end
entry 3
