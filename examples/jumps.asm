; Jumps. JZ goes to its label where a register holds 0, and JMP always. LT and EQ give 1 or 0 for
; JZ to look at. A division by zero is a jump too: DIV and REM say where to go then. All of them
; go forward; only a loop's end goes back.
;
; $ x10p run jumps.x10
; 0: 9
; 0: 2
; 0: 1
; 0: -1
places 1
int 4
int 9
int 0
int -1
func 3 0 none
  INTK 0 0
  INTK 1 1
; the greater of the two
  LT 2 0 1
  JZ 2 @first
  PRINT 1
  JMP @divide
first:
  PRINT 0
; how often the one goes into the other, and what is left
divide:
  DIV 2 1 0 @none
  PRINT 2
  REM 2 1 0 @none
  PRINT 2
; nothing is divided by zero: the next PRINT is passed by
  INTK 0 2
  DIV 2 1 0 @none
  PRINT 2
none:
  INTK 2 3
  PRINT 2
  RET 0
end
entry 0
