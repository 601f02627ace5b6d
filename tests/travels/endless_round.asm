; An activity starts its successor at the next place, and so on without an end. Each has its bound, 4 steps; the run
; ends by its limit.
;
; $ x10p bounds endless_round.x10
; 0 4
; 1 5
; $ x10p run endless_round.x10 --limit 5000
; 0: 1
; status 2: limit
places 2
int 1
func 1 0 none
  HERE 0
  NEXTP 0 0
  ATA 0 0 0
  RET 0
end
; main
func 1 0 none
  HERE 0
  ATA 0 0 0
  INTK 0 0
  PRINT 0
  RET 0
end
entry 1
