; Each place counts the counter at place 0 up, one place after the other, each in a finish of its own. No count is
; lost.
;
; $ x10p bounds counter_in_turn.x10
; 0 6
; 1 9
; 2 33
; $ x10p run counter_in_turn.x10
; 0: 5
; takes 164 events
; $ x10p run counter_in_turn.x10 --places 5
; 0: 5
; takes 160 events
; $ x10p run counter_in_turn.x10 --places 64
; 0: 5
; takes 160 events
places 2
class int
int 1
int 0
; adds 1 to the counter, which is here
func 4 0 none here:0
  GOPEN 1 0
  GET 2 1 0
  INTK 3 0
  ADD 2 2 3
  PUT 1 2 0
  RET 0
end
func 2 0 none gref:0
  HOME 1 0
  AT 0 0 1 0
  RET 0
end
; main
func 4 1 none
  INTK 0 1
  NEW 1 0 0
  GNEW 2 1
  HERE 3
  LOOP 0 5
again:
  FINB
  ATA 2 3 1
  FINE
  NEXTP 3 3
  ENDL 0 @again
  GET 0 1 0
  PRINT 0
  RET 0
end
entry 2
