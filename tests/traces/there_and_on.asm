; The trace of an activity that main starts at the next place: the spawn's frame, and the report that comes back before main
; has ended.
;
; $ x10p trace there_and_on.x10
; S 0 0 1 0 HERE
; S 0 0 1 1 NEXTP
; S 0 0 1 2 PLACEI
; S 0 0 1 3 PRINT
; S 0 0 1 4 ATA
; P 0 0 1 02010000000100000000000000000000000000000000000000000000
; D 0 1
; S 1 0 0 0 RET
; P 1 1 0 02040001000000000000000200000000000000000000000100000000
; D 1 0
; S 0 0 1 5 RET
; $ x10p run there_and_on.x10
; 0: 1
; takes 9 events
places 2
func 1 0 none
  RET 0
end
func 2 0 none
  HERE 0
  NEXTP 0 0
  PLACEI 1 0
  PRINT 1
  ATA 0 0 0
  RET 0
end
entry 1
