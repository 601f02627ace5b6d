; PRINT where two ways meet with a text, each with another one; and a register that holds a number at one
; PRINT and a text at the next, in a loop.
;
; $ x10p bounds two_ways_meet.x10
; 0 6
; 1 28
; $ x10p run two_ways_meet.x10
; 0: zero
; 0: not zero
; 0: 3
; 0: not zero
; 0: 3
; 0: not zero
; takes 25 events
places 1
int 0
int 3
text "zero"
text "not zero"
; what a number is
func 1 0 none int
  JZ 0 @zero
  TEXTK 0 1
  JMP @print
zero:
  TEXTK 0 0
print:
  PRINT 0
  RET 0
end
; main
func 1 1 none
  INTK 0 0
  CALL 0 0 0
  INTK 0 1
  CALL 0 0 0
  LOOP 0 2
again:
  INTK 0 1
  PRINT 0
  TEXTK 0 1
  PRINT 0
  ENDL 0 @again
  RET 0
end
entry 1
