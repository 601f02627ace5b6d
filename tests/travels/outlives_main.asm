; Nothing waits for the activity at place 1 but the run's own end: main prints 1 and ends, and the run goes on until 5
; is printed.
;
; $ x10p bounds outlives_main.x10
; 0 24
; 1 5
; $ x10p run outlives_main.x10
; 0: 1
; 1: 5
; takes 31 events
places 2
int 5
int 1
func 1 1 none
  LOOP 0 20
again:
  ENDL 0 @again
  INTK 0 0
  PRINT 0
  RET 0
end
; main
func 1 0 none
  PLACEK 0 1
  ATA 0 0 0
  INTK 0 1
  PRINT 0
  RET 0
end
entry 1
