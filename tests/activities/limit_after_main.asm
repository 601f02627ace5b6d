; Main has ended when the limit is met, and its activity hasn't: the run isn't over then.
;
; $ x10p run limit_after_main.x10
; 0: 7
; 0: 7
; takes 107 events
; $ x10p run limit_after_main.x10 --limit 10
; 0: 7
; status 2: limit
places 1
int 7
func 1 1 none
  INTK 0 0
  PRINT 0
  LOOP 0 100
wait:
  ENDL 0 @wait
  PRINT 0
  RET 0
end
; main
func 1 0 none
  ASYNC 0 0
  RET 0
end
entry 1
