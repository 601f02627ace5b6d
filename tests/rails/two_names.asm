; One rail in two registers, in the fields of two objects, and given to a function and back: what is
; written through one of them is read through all. A second rail of the same length has bytes of its own.
;
; $ x10p bounds two_names.x10
; 0 3
; 1 4
; 2 51
; $ x10p run two_names.x10
; 0: 1
; 0: 2
; 0: 3
; 0: 3
; 0: 4
; 0: 0
; takes 51 events
places 1
class rail
int 0
int 1
int 2
int 3
int 4
; writes a number to the first byte of a rail, and gives the rail back
func 3 0 rail rail int
  INTK 2 0
  RSET 0 2 1 @end
end:
  RET 0
end
; prints the first byte of a rail
func 2 0 none rail
  INTK 1 0
  RGET 1 0 1 @end
  PRINT 1
end:
  RET 0
end
; main
func 9 0 none
  INTK 0 0
  INTK 1 1
  RAIL 2 1 @end
  RAIL 7 1 @end
; two registers
  MOVE 3 2
  RSET 3 0 1 @end
  CALL 0 2 1
; two fields
  NEW 4 2 0
  NEW 5 3 0
  GET 6 4 0
  INTK 1 2
  RSET 6 0 1 @end
  GET 6 5 0
  CALL 0 6 1
; a function, and what it gives back
  MOVE 4 2
  INTK 5 3
  CALL 6 4 0
  CALL 0 2 1
  CALL 0 6 1
  INTK 1 4
  RSET 6 0 1 @end
  CALL 0 3 1
; another rail
  CALL 0 7 1
end:
  RET 0
end
entry 2
