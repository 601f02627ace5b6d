; An activity at each of two places, each inside a region of its own at the same time: a region keeps out the activities
; of its place alone.
;
; $ x10p trace two_places.x10
; S 0 0 1 0 PLACEK
; S 0 0 1 1 ATA
; ..
; D 0 1
; S 1 0 0 0 ATOMB
; S 0 0 1 2 ATOMB
; S 1 0 0 1 INTK
; S 0 0 1 3 INTK
; S 1 0 0 2 PRINT
; S 0 0 1 4 PRINT
; S 1 0 0 3 ATOME
; S 0 0 1 5 ATOME
; S 1 0 0 4 RET
; ..
; S 0 0 1 6 RET
; ..
; $ x10p run two_places.x10
; 0: 7
; 1: 7
; $ x10p run two_places.x10 --threads
; 0: 7
; 1: 7
; 5 times
version 2
places 2
int 7
func 1 0 none
  ATOMB
  INTK 0 0
  PRINT 0
  ATOME
  RET 0
end
func 1 0 none
  PLACEK 0 1
  ATA 0 0 0
  ATOMB
  INTK 0 0
  PRINT 0
  ATOME
  RET 0
end
entry 1
