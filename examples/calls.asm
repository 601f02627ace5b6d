; Functions. `func` says how many registers and loop slots a function has, the kind of its result,
; and the kinds of its parameters. CALL a b x calls function x with the registers from b on, and
; puts the result into register a. Each call has registers of its own, with the arguments in the
; first ones. A function calls only those that stand above it, so none calls itself, and `x10p
; bounds` knows the steps of each, main's too, which is function 3.
;
; $ x10p bounds calls.x10
; 0 2
; 1 8
; 2 2
; 3 32
; $ x10p run calls.x10
; 0: 25
; 0: 256
places 1
int 3
int 4
int 2
; the square of a number
func 1 0 int int
  MUL 0 0 0
  RET 0
end
; the sum of two squares, which calls the first function twice
func 2 0 int int int
  CALL 0 0 0
  CALL 1 1 0
  ADD 0 0 1
  RET 0
end
; prints a number, and gives no result: then the a of CALL and of RET is 0
func 1 0 none int
  PRINT 0
  RET 0
end
; main
func 3 1 none
  INTK 0 0
  INTK 1 1
  CALL 2 0 1
  CALL 0 2 2
; 2 squared three times
  INTK 0 2
  LOOP 0 3
again:
  CALL 0 0 0
  ENDL 0 @again
  CALL 0 0 2
  RET 0
end
entry 3
