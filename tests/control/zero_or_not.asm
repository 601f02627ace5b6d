; The first number, or the second where the first is 0: JZ jumps at 0 alone, and not at a negative
; number.
;
; $ x10p run zero_or_not.x10
; 0: 9
; 0: 5
; 0: -1
; takes 24 events
places 1
int 0
int 9
int 5
int -1
; two numbers
func 2 0 none int int
  JZ 0 @second
  MOVE 1 0
  JMP @print
second:
  MOVE 1 1
print:
  PRINT 1
  RET 0
end
; main
func 2 0 none
; 0 and 9: 9
  INTK 0 0
  INTK 1 1
  CALL 0 0 0
; 5 and 9: 5
  INTK 0 2
  INTK 1 1
  CALL 0 0 0
; -1 and 0: -1
  INTK 0 3
  INTK 1 0
  CALL 0 0 0
  RET 0
end
entry 1
