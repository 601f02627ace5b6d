; Two activities of place 0 are away at the same time, at two places, and each result comes to the one that asked for
; it.
;
; $ x10p bounds two_are_away.x10
; 0 15
; 1 19
; 2 9
; $ x10p run two_are_away.x10
; 0: 10
; 0: 20
; 0: 99
; takes 99 events
places 3
int 10
int 0
int 99
; waits for so many turns of a loop, and gives the place's number times 10
func 3 1 int int
  LOOP 0 9
again:
  ENDL 0 @again
  HERE 1
  PLACEI 1 1
  INTK 2 0
  MUL 0 1 2
  RET 0
end
; asks a place
func 2 0 none place
  INTK 1 1
  AT 1 1 0 0
  PRINT 1
  RET 0
end
; main
func 2 0 none
  FINB
  PLACEK 0 1
  ASYNC 0 1
  PLACEK 0 2
  ASYNC 0 1
  FINE
  INTK 0 2
  PRINT 0
  RET 0
end
entry 2
