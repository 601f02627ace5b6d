; Of two numbers: the sum, the difference, the product, whether the first is less, and whether they
; are equal. What doesn't fit into 64 bits wraps.
;
; $ x10p run sums.x10
; 0: 9
; 0: 5
; 0: 14
; 0: 0
; 0: 0
; 0: -5
; 0: -9
; 0: -14
; 0: 1
; 0: 0
; 0: 6
; 0: 0
; 0: 9
; 0: 0
; 0: 1
; 0: -2
; 0: 0
; 0: 1
; 0: 0
; 0: 1
; 0: -1
; 0: 1
; 0: -9223372036854775808
; 0: 1
; 0: 0
; 0: -1
; 0: -1
; 0: -9223372036854775808
; 0: 0
; 0: 0
; takes 85 events
places 1
int 7
int 2
int -7
int 3
int 9223372036854775807
int -9223372036854775808
; two numbers
func 3 0 none int int
  ADD 2 0 1
  PRINT 2
  SUB 2 0 1
  PRINT 2
  MUL 2 0 1
  PRINT 2
  LT 2 0 1
  PRINT 2
  EQ 2 0 1
  PRINT 2
  RET 0
end
; main
func 2 0 none
; 7 and 2: 9 5 14 0 0
  INTK 0 0
  INTK 1 1
  CALL 0 0 0
; -7 and 2: -5 -9 -14 1 0
  INTK 0 2
  INTK 1 1
  CALL 0 0 0
; 3 and 3: 6 0 9 0 1
  INTK 0 3
  INTK 1 3
  CALL 0 0 0
; 9223372036854775807 and 9223372036854775807: -2 0 1 0 1
  INTK 0 4
  INTK 1 4
  CALL 0 0 0
; -9223372036854775808 and 9223372036854775807: -1 1 -9223372036854775808 1 0
  INTK 0 5
  INTK 1 4
  CALL 0 0 0
; 9223372036854775807 and -9223372036854775808: -1 -1 -9223372036854775808 0 0
  INTK 0 4
  INTK 1 5
  CALL 0 0 0
  RET 0
end
entry 1
