; A rail has 0 to 65,535 bytes. For each length that is asked for this prints the length of the rail that
; was made; where RAIL goes to its label it prints -1, and 3, the length of the rail that its register
; held before.
;
; $ x10p bounds lengths.x10
; 0 7
; 1 111
; $ x10p run lengths.x10
; 0: 0
; 0: 1
; 0: 65534
; 0: 65535
; 0: -1
; 0: 3
; 0: -1
; 0: 3
; 0: -1
; 0: 3
; 0: -1
; 0: 3
; 0: -1
; 0: 3
; 0: -1
; 0: 3
; 0: -1
; 0: 3
; 0: -1
; 0: 3
; takes 95 events
places 1
int 3
int -1
int 0
int 1
int 65534
int 65535
int 65536
int 65537
int 2147483648
int 4294967296
int 4294967297
int 9223372036854775807
int -9223372036854775808
; a length, and a rail
func 2 0 none int rail
  RAIL 1 0 @none
  JMP @print
none:
  INTK 0 1
  PRINT 0
print:
  RLEN 0 1
  PRINT 0
  RET 0
end
; main
func 2 0 none
  INTK 1 0
  RAIL 1 1 @end
  INTK 0 2
  CALL 0 0 0
  INTK 0 3
  CALL 0 0 0
  INTK 0 4
  CALL 0 0 0
  INTK 0 5
  CALL 0 0 0
; too long
  INTK 0 6
  CALL 0 0 0
  INTK 0 7
  CALL 0 0 0
  INTK 0 8
  CALL 0 0 0
  INTK 0 9
  CALL 0 0 0
  INTK 0 10
  CALL 0 0 0
  INTK 0 11
  CALL 0 0 0
; below 0
  INTK 0 1
  CALL 0 0 0
  INTK 0 12
  CALL 0 0 0
end:
  RET 0
end
entry 1
