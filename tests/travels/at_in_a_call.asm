; A function that was called goes away. Its caller has registers and loops as before when the result is there.
;
; $ x10p bounds at_in_a_call.x10
; 0 3
; 1 13
; 2 54
; $ x10p run at_in_a_call.x10
; 0: 49
; 0: 98
; 0: 196
; takes 84 events
places 2
int 7
int 1
; seven times what it was given
func 2 0 int int
  INTK 1 0
  MUL 0 0 1
  RET 0
end
; asks place 1, twice
func 3 1 int int
  PLACEK 1 1
  LOOP 0 2
again:
  AT 0 0 1 0
  ENDL 0 @again
  RET 0
end
; main
func 3 1 none
  INTK 0 1
  LOOP 0 3
turn:
  CALL 1 0 1
  PRINT 1
  ADD 0 0 0
  ENDL 0 @turn
  RET 0
end
entry 2
