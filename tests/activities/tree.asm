; A tree of activities: each starts two, five levels deep, and the 32 of the last level print 1. None of them waits,
; and main's finish is around all 63.
;
; $ x10p bounds tree.x10
; 0 8
; 1 7
; $ x10p run tree.x10
; {{32 * 0: 1}}
; 0: 2
; takes 350 events
places 1
int 1
int 2
int 5
func 2 0 none int
  INTK 1 0
  JZ 0 @leaf
  SUB 0 0 1
  ASYNC 0 0
  ASYNC 0 0
  RET 0
leaf:
  PRINT 1
  RET 0
end
; main
func 1 0 none
  FINB
  INTK 0 2
  ASYNC 0 0
  FINE
  INTK 0 1
  PRINT 0
  RET 0
end
entry 1
