; A loop with a finish in it is left by a jump that stands behind the finish, in the second of ten turns. Each turn
; waits for its two activities. The loop in the finish has slot 1, as slots count loops alone.
;
; $ x10p bounds finish_in_a_loop_left.x10
; 0 2
; 1 106
; $ x10p run finish_in_a_loop_left.x10
; 0: 2
; 0: 2
; 0: 1
; 0: 1
; 0: 9
; takes 35 events
places 1
int 0
int 1
int 2
int 9
func 1 0 none int
  PRINT 0
  RET 0
end
; main
func 2 2 none
  INTK 0 2
  INTK 1 1
  LOOP 0 10
turn:
  FINB
  LOOP 1 2
start:
  ASYNC 0 0
  ENDL 1 @start
  FINE
  SUB 0 0 1
  JZ 0 @left
  ENDL 0 @turn
left:
  INTK 0 3
  PRINT 0
  RET 0
end
entry 1
