; Main ends at once, and its activity 100 turns later: the run ends only then. Main may take 2 steps, and the run takes
; more, since an activity's steps are its own.
;
; $ x10p verify outlives_main.x10
; verified 2 functions, entry bound 2
; $ x10p bounds outlives_main.x10
; 0 104
; 1 2
; $ x10p run outlives_main.x10
; 0: 7
; takes 106 events
places 1
int 7
func 1 1 none
  INTK 0 0
  LOOP 0 100
wait:
  ENDL 0 @wait
  PRINT 0
  RET 0
end
; main
func 1 0 none
  ASYNC 0 0
  RET 0
end
entry 1
