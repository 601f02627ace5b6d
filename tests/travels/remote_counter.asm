; A counter at place 0 is counted up from place 1: the activity has the counter's global reference, asks for its home,
; and goes there to open it.
;
; $ x10p bounds remote_counter.x10
; 0 6
; 1 48
; 2 10
; $ x10p run remote_counter.x10
; 0: 5
; 1: 1
; 1: 2
; 1: 3
; 1: 4
; 1: 5
; takes 137 events
places 2
class int
int 1
int 0
; adds 1 to the counter, which is here
func 4 0 int here:0
  GOPEN 1 0
  GET 2 1 0
  INTK 3 0
  ADD 2 2 3
  PUT 1 2 0
  RET 2
end
; counts five times
func 3 1 none gref:0
  HOME 1 0
  LOOP 0 5
again:
  AT 2 0 1 0
  PRINT 2
  ENDL 0 @again
  RET 0
end
; main
func 4 0 none
  INTK 0 1
  NEW 1 0 0
  GNEW 2 1
  PLACEK 3 1
  FINB
  ATA 2 3 1
  FINE
  GET 0 1 0
  PRINT 0
  RET 0
end
entry 2
