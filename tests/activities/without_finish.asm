; Without a finish main doesn't wait: it prints before the activity that it has started.
;
; $ x10p bounds without_finish.x10
; 0 3
; 1 4
; $ x10p run without_finish.x10
; 0: 2
; 0: 1
; takes 7 events
places 1
int 1
int 2
func 1 0 none
  INTK 0 0
  PRINT 0
  RET 0
end
; main
func 1 0 none
  ASYNC 0 0
  INTK 0 1
  PRINT 0
  RET 0
end
entry 1
