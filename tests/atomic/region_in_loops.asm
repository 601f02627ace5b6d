; A region in two loops. Each turn enters it and leaves it, so that the other activity comes in between two of them: both
; count to 12 together, and their sums are each different.
;
; $ x10p bounds region_in_loops.x10
; 0 49
; 1 7
; $ x10p run region_in_loops.x10
; 0: 1
; 0: 2
; 0: 3
; 0: 4
; 0: 5
; 0: 6
; 0: 7
; 0: 8
; 0: 9
; 0: 10
; 0: 11
; 0: 12
; $ x10p run region_in_loops.x10 --threads
; 0: 1
; 0: 2
; 0: 3
; 0: 4
; 0: 5
; 0: 6
; 0: 7
; 0: 8
; 0: 9
; 0: 10
; 0: 11
; 0: 12
; 5 times
version 2
places 1
class int
int 0
int 1
func 3 2 none obj:0
  INTK 2 1
  LOOP 0 2
turn:
  LOOP 1 3
again:
  ATOMB
  GET 1 0 0
  ADD 1 1 2
  PUT 0 1 0
  PRINT 1
  ATOME
  ENDL 1 @again
  ENDL 0 @turn
  RET 0
end
func 2 0 none
  INTK 0 0
  NEW 1 0 0
  FINB
  ASYNC 1 0
  ASYNC 1 0
  FINE
  RET 0
end
entry 1
