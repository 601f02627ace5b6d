; The greatest common divisor by Euclid's algorithm: a loop that is left before its count is used
; up. REM goes to `done` where the divisor is 0, and a jump may leave loops. No two numbers of 64
; bits need more than 92 turns (Lame's theorem), and the bound counts them all: 370 steps for the
; function, however few it takes. The second two numbers, neighbors among those of Fibonacci, take
; 91 turns.
;
; $ x10p bounds euclid.x10
; 0 370
; 1 749
; $ x10p run euclid.x10
; 0: 21
; 0: 1
places 1
int 1071
int 462
int 7540113804746346429
int 4660046610375530309
; the divisor of two numbers
func 3 1 int int int
  LOOP 0 92
turn:
  REM 2 0 1 @done
  MOVE 0 1
  MOVE 1 2
  ENDL 0 @turn
done:
  RET 0
end
; main
func 2 0 none
  INTK 0 0
  INTK 1 1
  CALL 0 0 0
  PRINT 0
  INTK 0 2
  INTK 1 3
  CALL 0 0 0
  PRINT 0
  RET 0
end
entry 1
