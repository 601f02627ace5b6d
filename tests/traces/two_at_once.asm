; The trace of two activities at one place: what main begins takes key 1, and makes its first step in the next round.
;
; $ x10p trace two_at_once.x10
; S 0 0 1 0 FINB
; S 0 0 1 1 ASYNC
; - 0 0
; S 0 1 0 0 INTK
; - 0 0
; S 0 1 0 1 PRINT
; - 0 0
; S 0 1 0 2 RET
; S 0 0 1 2 FINE
; S 0 0 1 3 INTK
; S 0 0 1 4 RET
; $ x10p run two_at_once.x10
; 0: 5
; takes 11 events
places 1
int 5
func 1 0 none
  INTK 0 0
  PRINT 0
  RET 0
end
func 1 0 none
  FINB
  ASYNC 0 0
  FINE
  INTK 0 0
  RET 0
end
entry 1
