; Main stands at its FINE while two activities print. A FINE that can't go on yet changes nothing and is no step of
; main, but an event of the run: 12 of the events here. Where the limit is met meanwhile, the lines that were printed
; until then stand there, and main's isn't among them. With as many events as the run takes it ends well.
;
; $ x10p bounds limit_while_main_waits.x10
; 0 12
; 1 9
; $ x10p run limit_while_main_waits.x10
; 0: 1
; 0: 2
; 0: 1
; 0: 2
; 0: 1
; 0: 2
; 0: 1
; 0: 2
; 0: 1
; 0: 2
; 0: 3
; takes 45 events
; $ x10p run limit_while_main_waits.x10 --limit 30
; 0: 1
; 0: 2
; 0: 1
; 0: 2
; 0: 1
; 0: 2
; 0: 1
; 0: 2
; status 2: limit
; $ x10p run limit_while_main_waits.x10 --limit 5
; status 2: limit
; $ x10p run limit_while_main_waits.x10 --limit 1
; status 2: limit
places 1
int 1
int 2
int 3
func 1 1 none int
  LOOP 0 5
turn:
  PRINT 0
  ENDL 0 @turn
  RET 0
end
; main
func 2 0 none
  INTK 0 0
  INTK 1 1
  FINB
  ASYNC 0 0
  ASYNC 1 0
  FINE
  INTK 0 2
  PRINT 0
  RET 0
end
entry 1
