; A finish around 64 activities, which all live at the same time: each one waits 300 turns of a loop, and the last is
; started before the first has ended. Each prints 1, and then main prints 2.
;
; $ x10p bounds around_64.x10
; 0 304
; 1 134
; $ x10p run around_64.x10
; {{64 * 0: 1}}
; 0: 2
; takes 19893 events
places 1
int 1
int 2
func 1 1 none
  INTK 0 0
  LOOP 0 300
wait:
  ENDL 0 @wait
  PRINT 0
  RET 0
end
; main
func 1 1 none
  FINB
  LOOP 0 64
start:
  ASYNC 0 0
  ENDL 0 @start
  FINE
  INTK 0 1
  PRINT 0
  RET 0
end
entry 1
