; A finish around one activity: main goes on after FINE only when the activity has ended.
;
; $ x10p bounds around_one.x10
; 0 3
; 1 6
; $ x10p run around_one.x10
; 0: 1
; 0: 2
; takes 12 events
places 1
int 1
int 2
func 1 0 none
  INTK 0 0
  PRINT 0
  RET 0
end
; main
func 1 0 none
  FINB
  ASYNC 0 0
  FINE
  INTK 0 1
  PRINT 0
  RET 0
end
entry 1
