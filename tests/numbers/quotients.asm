; Of two numbers: the quotient, toward zero, and the remainder, with the sign of the first. Where
; the second is 0 both go to their labels, and nothing is printed.
;
; $ x10p run quotients.x10
; 0: 3
; 0: 1
; 0: -3
; 0: -1
; 0: -3
; 0: 1
; 0: 3
; 0: -1
; 0: -9223372036854775808
; 0: 0
; 0: -9223372036854775808
; 0: 0
; 0: 0
; 0: 0
; takes 75 events
places 1
int 7
int 2
int -7
int -2
int -9223372036854775808
int -1
int 1
int 0
int -5
; two numbers
func 3 0 none int int
  DIV 2 0 1 @rest
  PRINT 2
rest:
  REM 2 0 1 @done
  PRINT 2
done:
  RET 0
end
; main
func 2 0 none
; 7 and 2: 3 1
  INTK 0 0
  INTK 1 1
  CALL 0 0 0
; -7 and 2: -3 -1
  INTK 0 2
  INTK 1 1
  CALL 0 0 0
; 7 and -2: -3 1
  INTK 0 0
  INTK 1 3
  CALL 0 0 0
; -7 and -2: 3 -1
  INTK 0 2
  INTK 1 3
  CALL 0 0 0
; -9223372036854775808 and -1: -9223372036854775808 0
  INTK 0 4
  INTK 1 5
  CALL 0 0 0
; -9223372036854775808 and 1: -9223372036854775808 0
  INTK 0 4
  INTK 1 6
  CALL 0 0 0
; 0 and -5: 0 0
  INTK 0 7
  INTK 1 8
  CALL 0 0 0
; 7 and 0: nothing
  INTK 0 0
  INTK 1 7
  CALL 0 0 0
; 0 and 0: nothing
  INTK 0 7
  INTK 1 7
  CALL 0 0 0
; -9223372036854775808 and 0: nothing
  INTK 0 4
  INTK 1 7
  CALL 0 0 0
  RET 0
end
entry 1
