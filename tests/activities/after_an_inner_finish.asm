; After its FINE an activity is in the finish around it again. The slow activity is started there, so the next inner
; finish doesn't wait for it, and the outer one does.
;
; $ x10p run after_an_inner_finish.x10
; 0: 2
; 0: 10
; 0: 2
; 0: 20
; 0: 1
; 0: 30
; takes 228 events
places 1
int 1
int 2
int 10
int 20
int 30
; a slow activity
func 1 1 none
  INTK 0 0
  LOOP 0 100
wait:
  ENDL 0 @wait
  PRINT 0
  RET 0
end
; a quick one
func 1 0 none
  INTK 0 1
  PRINT 0
  RET 0
end
; main
func 1 0 none
  FINB
  FINB
  ASYNC 0 1
  FINE
  INTK 0 2
  PRINT 0
  ASYNC 0 0
  FINB
  ASYNC 0 1
  FINE
  INTK 0 3
  PRINT 0
  FINE
  INTK 0 4
  PRINT 0
  RET 0
end
entry 2
