; A token goes round a ring of places. Each activity prints what is left on the token, takes one away and starts its
; successor at the next place, which is the last thing that it does. So at each moment one activity is at work, and
; only the first was started by main. The finish waits for the last one all the same: it counts what was sent and what
; came, under the finish in which it all began.
;
; $ x10p run ring.x10
; 0: 7
; 0: 4
; 0: 1
; 0: the ring is at rest
; 1: 6
; 1: 3
; 1: 0
; 2: 5
; 2: 2
; takes 127 events
places 3
int 1
int 7
text "the ring is at rest"
func 3 0 none int
  PRINT 0
  JZ 0 @out
  INTK 1 0
  SUB 0 0 1
  HERE 2
  NEXTP 2 2
  ATA 0 2 0
out:
  RET 0
end
; main
func 2 0 none
  INTK 0 1
  HERE 1
  FINB
  ATA 0 1 0
  FINE
  TEXTK 0 0
  PRINT 0
  RET 0
end
entry 1
