; A byte is 0 to 255: of other numbers RSET keeps what is left modulo 256, which is never below 0.
;
; $ x10p bounds bytes.x10
; 0 7
; 1 136
; $ x10p run bytes.x10
; 0: 0
; 0: 1
; 0: 127
; 0: 128
; 0: 255
; 0: 0
; 0: 1
; 0: 255
; 0: 128
; 0: 127
; 0: 0
; 0: 255
; 0: 0
; 0: 255
; 0: 0
; takes 136 events
places 1
int 0
int 1
int 127
int 128
int 255
int 256
int 257
int -1
int -128
int -129
int -256
int -257
int 4294967296
int 9223372036854775807
int -9223372036854775808
; the byte that comes of a number
func 3 0 none int
  INTK 1 1
  RAIL 2 1 @end
  INTK 1 0
  RSET 2 1 0 @end
  RGET 0 2 1 @end
  PRINT 0
end:
  RET 0
end
; main
func 1 0 none
  INTK 0 0
  CALL 0 0 0
  INTK 0 1
  CALL 0 0 0
  INTK 0 2
  CALL 0 0 0
  INTK 0 3
  CALL 0 0 0
  INTK 0 4
  CALL 0 0 0
  INTK 0 5
  CALL 0 0 0
  INTK 0 6
  CALL 0 0 0
  INTK 0 7
  CALL 0 0 0
  INTK 0 8
  CALL 0 0 0
  INTK 0 9
  CALL 0 0 0
  INTK 0 10
  CALL 0 0 0
  INTK 0 11
  CALL 0 0 0
  INTK 0 12
  CALL 0 0 0
  INTK 0 13
  CALL 0 0 0
  INTK 0 14
  CALL 0 0 0
  RET 0
end
entry 1
