; A jump inside a finish leaves two loops there, after three activities were started. It goes to the FINE, which stands
; inside the finish still, and main waits for the three.
;
; $ x10p bounds loop_left_in_a_finish.x10
; 0 2
; 1 108
; $ x10p run loop_left_in_a_finish.x10
; 0: 3
; 0: 2
; 0: 1
; 0: 9
; takes 30 events
places 1
int 0
int 1
int 3
int 9
func 1 0 none int
  PRINT 0
  RET 0
end
; main
func 3 2 none
  INTK 0 2
  INTK 1 1
  FINB
  LOOP 0 10
outer:
  LOOP 1 2
inner:
  JZ 0 @left
  ASYNC 0 0
  SUB 0 0 1
  ENDL 1 @inner
  ENDL 0 @outer
left:
  FINE
  INTK 0 3
  PRINT 0
  RET 0
end
entry 1
