; Two activities with a region each, event by event. From the ATOMB of the one until its ATOME a step of the other is
; idle, and so is one of main, which stands at its FINE. After the ATOME of key 1 key 2 moves, in the same round.
;
; $ x10p trace kept_out.x10
; S 0 0 1 0 FINB
; S 0 0 1 1 ASYNC
; S 0 0 1 2 ASYNC
; S 0 1 0 0 ATOMB
; - 0 0
; S 0 1 0 1 HERE
; - 0 2
; - 0 0
; S 0 1 0 2 ATOME
; S 0 2 0 0 ATOMB
; - 0 0
; - 0 1
; S 0 2 0 1 HERE
; - 0 0
; - 0 1
; S 0 2 0 2 ATOME
; - 0 0
; S 0 1 0 3 RET
; S 0 2 0 3 RET
; S 0 0 1 3 FINE
; S 0 0 1 4 RET
version 2
places 1
func 1 0 none
  ATOMB
  HERE 0
  ATOME
  RET 0
end
func 1 0 none
  FINB
  ASYNC 0 0
  ASYNC 0 0
  FINE
  RET 0
end
entry 1
