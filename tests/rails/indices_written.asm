; The byte 9 is written to a rail of three at its first and last byte, which prints 1; and at numbers
; that are no index of it: there RSET goes to its label, which prints 0, and the rail stays as it is.
;
; $ x10p bounds indices_written.x10
; 0 8
; 1 20
; 2 166
; $ x10p run indices_written.x10
; 0: 1
; 0: 1
; {{8 * 0: 0}}
; 0: 9
; 0: 0
; 0: 9
; 0: 3
; {{2 * 0: 0}}
; 0: 0
; takes 116 events
places 1
int 0
int 1
int 2
int 3
int 4
int -1
int -3
int 2147483648
int 4294967296
int 9223372036854775807
int -9223372036854775808
int 9
; writes 9 to a rail at a number, and prints whether there was such a byte
func 3 0 none rail int
  INTK 2 11
  RSET 0 1 2 @none
  INTK 2 1
  PRINT 2
  RET 0
none:
  INTK 2 0
  PRINT 2
  RET 0
end
; prints the bytes of a rail of at most 3, and its length
func 3 1 none rail
  INTK 1 0
  LOOP 0 3
next:
  RGET 2 0 1 @end
  PRINT 2
  INTK 2 1
  ADD 1 1 2
  ENDL 0 @next
end:
  RLEN 1 0
  PRINT 1
  RET 0
end
; main
func 2 0 none
  INTK 1 3
  RAIL 0 1 @end
; what it has
  INTK 1 0
  CALL 0 0 0
  INTK 1 2
  CALL 0 0 0
; what it hasn't
  INTK 1 3
  CALL 0 0 0
  INTK 1 4
  CALL 0 0 0
  INTK 1 5
  CALL 0 0 0
  INTK 1 6
  CALL 0 0 0
  INTK 1 7
  CALL 0 0 0
  INTK 1 8
  CALL 0 0 0
  INTK 1 9
  CALL 0 0 0
  INTK 1 10
  CALL 0 0 0
  CALL 0 0 1
; a rail without bytes
  INTK 1 0
  RAIL 0 1 @end
  CALL 0 0 0
  INTK 1 5
  CALL 0 0 0
  CALL 0 0 1
end:
  RET 0
end
entry 2
