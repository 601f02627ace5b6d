; A rail of three bytes, 7, 8 and 9, is read at its first and last byte and at numbers that are no index
; of it: there RGET goes to its label, and its register is -5, as it was before. A rail without bytes has
; no index at all.
;
; $ x10p bounds indices_read.x10
; 0 4
; 1 91
; $ x10p run indices_read.x10
; 0: 7
; 0: 8
; 0: 9
; {{10 * 0: -5}}
; takes 91 events
places 1
int 0
int 1
int 2
int 3
int 4
int -1
int -3
int 2147483648
int 4294967296
int 9223372036854775807
int -9223372036854775808
int 7
int 8
int 9
int -5
; the byte of a rail at a number, or -5
func 3 0 none rail int
  INTK 2 14
  RGET 2 0 1 @print
print:
  PRINT 2
  RET 0
end
; main
func 4 0 none
  INTK 1 3
  RAIL 0 1 @end
  INTK 1 0
  INTK 2 11
  RSET 0 1 2 @end
  INTK 1 1
  INTK 2 12
  RSET 0 1 2 @end
  INTK 1 2
  INTK 2 13
  RSET 0 1 2 @end
; what it has
  INTK 1 0
  CALL 0 0 0
  INTK 1 1
  CALL 0 0 0
  INTK 1 2
  CALL 0 0 0
; what it hasn't
  INTK 1 3
  CALL 0 0 0
  INTK 1 4
  CALL 0 0 0
  INTK 1 5
  CALL 0 0 0
  INTK 1 6
  CALL 0 0 0
  INTK 1 7
  CALL 0 0 0
  INTK 1 8
  CALL 0 0 0
  INTK 1 9
  CALL 0 0 0
  INTK 1 10
  CALL 0 0 0
; a rail without bytes
  INTK 1 0
  RAIL 0 1 @end
  CALL 0 0 0
  INTK 1 5
  CALL 0 0 0
end:
  RET 0
end
entry 1
