; An activity starts its successor at the next place, and so on without an end. Main's first turn is the first of the
; log, so its line is told whatever the limit.
;
; $ x10p run endless_round.x10 --threads --limit 1
; 0: 1
; status 2: turns
; $ x10p run endless_round.x10 --threads --limit 3000
; 0: 1
; status 2: turns
places 3
int 1
func 1 0 none
  HERE 0
  NEXTP 0 0
  ATA 0 0 0
  RET 0
end
; main
func 1 0 none
  INTK 0 0
  PRINT 0
  HERE 0
  ATA 0 0 0
  RET 0
end
entry 1
