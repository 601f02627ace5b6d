; A tree of activities, each of which waits for the two that it has started and then prints its level: a level's number
; comes only after those below it.
;
; $ x10p bounds tree_of_finishes.x10
; 0 9
; 1 3
; $ x10p run tree_of_finishes.x10
; {{8 * 0: 0}}
; 0: 1
; 0: 1
; 0: 1
; 0: 1
; 0: 2
; 0: 2
; 0: 3
; takes 162 events
places 1
int 1
int 3
func 3 0 none int
  INTK 1 0
  JZ 0 @leaf
  SUB 2 0 1
  FINB
  ASYNC 2 0
  ASYNC 2 0
  FINE
leaf:
  PRINT 0
  RET 0
end
; main
func 1 0 none
  INTK 0 1
  ASYNC 0 0
  RET 0
end
entry 1
