; Two accounts are the two fields of an object. One activity moves 30 from the first to the second, as often as there is
; enough, and a second one prints the sum of both. Each does so inside an atomic region, since the sum is wrong between
; the two PUTs of a move: what has to change together is changed in one region, and read in one.
;
; A jump inside the region goes to its ATOME at most. The sum is printed outside: a region should be short, since it keeps
; all others of its place waiting.
;
; $ x10p run transfers.x10
; 0: 100
; 0: 100
; 0: 100
; 0: 10
; 0: 90
; $ x10p run transfers.x10 --threads
; 0: 100
; 0: 100
; 0: 100
; 0: 10
; 0: 90
version 2
places 1
class int int
int 100
int 0
int 30
; tries five times to move 30 from field 0 to field 1
func 4 1 none obj:0
  INTK 1 2
  LOOP 0 5
again:
  ATOMB
  GET 2 0 0
  LT 3 2 1
  JZ 3 @enough
  JMP @out
enough:
  SUB 2 2 1
  PUT 0 2 0
  GET 2 0 1
  ADD 2 2 1
  PUT 0 2 1
out:
  ATOME
  ENDL 0 @again
  RET 0
end
; prints the sum three times
func 3 1 none obj:0
  LOOP 0 3
again:
  ATOMB
  GET 1 0 0
  GET 2 0 1
  ATOME
  ADD 1 1 2
  PRINT 1
  ENDL 0 @again
  RET 0
end
; main
func 3 0 none
  INTK 0 0
  INTK 1 1
  NEW 2 0 0
  FINB
  ASYNC 2 0
  ASYNC 2 1
  FINE
  GET 0 2 0
  PRINT 0
  GET 0 2 1
  PRINT 0
  RET 0
end
entry 2
