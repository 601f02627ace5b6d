; Activities at places 1 and 2 count up a counter of place 0 by its reference, as in ../travels/lost_updates.asm, and at
; its home each does so inside a region: no sum is lost.
;
; $ x10p run by_reference.x10
; 0: 10
; $ x10p run by_reference.x10 --threads
; 0: 10
; 5 times
version 2
places 3
class int
int 1
int 0
; adds 1 to the counter, which is here
func 4 0 none here:0
  GOPEN 1 0
  INTK 3 0
  ATOMB
  GET 2 1 0
  ADD 2 2 3
  PUT 1 2 0
  ATOME
  RET 0
end
; counts five times
func 2 1 none gref:0
  HOME 1 0
  LOOP 0 5
again:
  AT 0 0 1 0
  ENDL 0 @again
  RET 0
end
; main
func 5 0 none
  INTK 0 1
  NEW 1 0 0
  GNEW 2 1
  PLACEK 3 1
  PLACEK 4 2
  FINB
  ATA 2 3 1
  ATA 2 4 1
  FINE
  GET 0 1 0
  PRINT 0
  RET 0
end
entry 2
