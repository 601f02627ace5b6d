; Main and two activities are in the same loop of the same function at the same time: each has registers and loop slots
; of its own, and each adds its number three times.
;
; $ x10p bounds loops_of_their_own.x10
; 0 10
; 1 17
; $ x10p run loops_of_their_own.x10
; 0: 3
; 0: 60
; 0: 900
; takes 37 events
places 1
int 0
int 1
int 20
int 300
func 2 1 none int
  INTK 1 0
  LOOP 0 3
add:
  ADD 1 1 0
  ENDL 0 @add
  PRINT 1
  RET 0
end
; main
func 1 0 none
  INTK 0 1
  ASYNC 0 0
  INTK 0 2
  ASYNC 0 0
  INTK 0 3
  CALL 0 0 0
  RET 0
end
entry 1
