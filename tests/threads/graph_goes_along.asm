; Two objects name each other, and share a rail of two bytes. Their copies at place 1 are a graph of their own: the byte
; that is written there is read there, by the way round the cycle, and not at place 0.
;
; $ x10p run graph_goes_along.x10 --threads
; 0: 0
; 1: 9
; 3 times
; $ x10p run graph_goes_along.x10
; 0: 0
; 1: 9
places 2
class opt:0 rail gref:1
class
int 2
int 0
int 9
; at place 1: writes by one object, reads by the other
func 4 0 none obj:0
  GET 1 0 1
  INTK 2 1
  INTK 3 2
  RSET 1 2 3 @out
  GET 0 0 0
  IFOBJ 0 0 @out
  GET 1 0 1
  RGET 3 1 2 @out
  PRINT 3
out:
  RET 0
end
; main
func 7 0 none
  NEW 3 0 1
  GNEW 2 3
  INTK 5 0
  RAIL 1 5 @out
  NULL 0 0
  NEW 3 0 0
  MOVE 0 3
  NEW 4 0 0
  PUT 3 4 0
  FINB
  PLACEK 6 1
  ATA 4 6 0
  FINE
  INTK 5 1
  RGET 5 1 5 @out
  PRINT 5
out:
  RET 0
end
entry 1
