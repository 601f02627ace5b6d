; A jump may pass by a whole finish: the function starts its activity, and waits, only where its argument isn't 0.
;
; $ x10p bounds jumped_over.x10
; 0 3
; 1 6
; 2 17
; $ x10p run jumped_over.x10
; 0: 0
; 0: 7
; 0: 1
; takes 20 events
places 1
int 0
int 1
int 7
func 1 0 none
  INTK 0 2
  PRINT 0
  RET 0
end
func 1 0 none int
  JZ 0 @out
  FINB
  ASYNC 0 0
  FINE
out:
  PRINT 0
  RET 0
end
; main
func 1 0 none
  INTK 0 0
  CALL 0 0 1
  INTK 0 1
  CALL 0 0 1
  RET 0
end
entry 2
