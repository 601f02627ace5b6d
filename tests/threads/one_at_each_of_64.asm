; Main starts an activity at each of 64 places, which prints the place's number, and waits for all in a finish; so 64
; threads work at the same time, and report to place 0.
;
; $ x10p run one_at_each_of_64.x10 --threads
; ..
; 0: 64
; ..
; 62: 62
; 63: 63
; 2 times
; $ x10p run one_at_each_of_64.x10 --threads --explain
; ..
; 1: 1
; 2: 2
; 3: 3
; ..
; 63: 63
places 64
func 2 0 none
  HERE 0
  PLACEI 1 0
  PRINT 1
  RET 0
end
; main
func 2 1 none
  HERE 0
  FINB
  LOOP 0 64
again:
  ATA 0 0 0
  NEXTP 0 0
  ENDL 0 @again
  FINE
  COUNT 1
  PRINT 1
  RET 0
end
entry 1
