; An activity starts another one and ends before it. Main's finish waits for both, though main has started the first
; alone.
;
; $ x10p bounds outlives_its_starter.x10
; 0 104
; 1 4
; 2 6
; $ x10p run outlives_its_starter.x10
; 0: 1
; 0: 2
; 0: 3
; takes 219 events
places 1
int 1
int 2
int 3
; the second activity
func 1 1 none
  INTK 0 1
  LOOP 0 100
wait:
  ENDL 0 @wait
  PRINT 0
  RET 0
end
; the first one
func 1 0 none
  ASYNC 0 0
  INTK 0 0
  PRINT 0
  RET 0
end
; main
func 1 0 none
  FINB
  ASYNC 0 1
  FINE
  INTK 0 2
  PRINT 0
  RET 0
end
entry 2
