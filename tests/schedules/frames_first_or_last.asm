; Main sends two activities to place 1, which print 1 and 2. The frames wait until main can't move any more. Then the first or the
; last one is taken in, and what it begins has ended before the other one is.
;
; $ x10p run frames_first_or_last.x10 --schedule oldest
; 1: 1
; 1: 2
; $ x10p run frames_first_or_last.x10 --schedule newest
; 1: 2
; 1: 1
; $ x10p trace frames_first_or_last.x10 --schedule newest
; S 0 0 1 0 PLACEK
; S 0 0 1 1 INTK
; S 0 0 1 2 ATA
; P 0 0 1 02010000000100000000000000000001000000000000000000000000010000000000000001
; S 0 0 1 3 INTK
; S 0 0 1 4 ATA
; P 1 0 1 02010000000100000000000000000001000000000000000000000000010000000000000002
; S 0 0 1 5 RET
; D 1 1
; S 1 0 0 0 PRINT
; S 1 0 0 1 RET
; P 2 1 0 02040001000000000000000200000000000000000000000100000000
; D 2 0
; D 0 1
; S 1 0 0 0 PRINT
; S 1 0 0 1 RET
; P 3 1 0 02040001000000000000000200000000000000000000000200000000
; D 3 0
places 2
int 1
int 2
func 1 0 none int
  PRINT 0
  RET 0
end
func 3 0 none
  PLACEK 2 1
  INTK 0 0
  ATA 0 2 0
  INTK 0 1
  ATA 0 2 0
  RET 0
end
entry 1
