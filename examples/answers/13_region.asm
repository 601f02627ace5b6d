; Exercise 13: the region is where the counter is, around what reads it and what writes it. So both are in one function,
; which the clients call by AT.
;
; $ x10p run 13_region.x10
; 0: 10
; $ x10p run 13_region.x10 --threads
; 0: 10
version 2
places 3
class int
int 0
int 1
; adds 1 to the counter, at its home
func 3 0 none here:0
  GOPEN 0 0
  INTK 1 1
  ATOMB
  GET 2 0 0
  ADD 2 2 1
  PUT 0 2 0
  ATOME
  RET 0
end
; a client: counts five times
func 2 1 none gref:0
  HOME 1 0
  LOOP 0 5
again:
  AT 0 0 1 0
  ENDL 0 @again
  RET 0
end
; main
func 4 0 none
  INTK 0 0
  NEW 0 0 0
  GNEW 1 0
  FINB
  PLACEK 2 1
  ATA 1 2 1
  PLACEK 2 2
  ATA 1 2 1
  FINE
  GET 0 0 0
  PRINT 0
  RET 0
end
entry 2
