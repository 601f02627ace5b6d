; Whether a FINE goes on in the round in which the last activity ends depends on the keys. Main, with key 0, waits for
; an activity with key 1: it looks before that one's RET, which is its only idle event, and goes on a round later. Then
; an activity with key 1 waits for one that has got main's key, since main has ended: it looks after that one's RET,
; and goes on in the same round.
;
; $ x10p run closed_in_the_same_round.x10
; 0: 1
; 0: 2
; takes 18 events
places 1
int 1
int 2
func 1 0 none
  RET 0
end
; waits for one activity
func 1 0 none int
  FINB
  ASYNC 0 0
  FINE
  PRINT 0
  RET 0
end
; main
func 1 0 none
  INTK 0 0
  CALL 0 0 1
  INTK 0 1
  ASYNC 0 1
  RET 0
end
entry 2
