; Where two ways come together, only what both know is known. The function takes the first reference or the second one,
; as a number says. On the way of the first one the home was asked for, on the way of the second it wasn't. Behind the
; label `chosen` the verifier must think of both. `merged.asm` is the repair.
;
; $ x10p verify merged_refused.x10
; status 1: verify: Home 1 5
places 2
class int
int 3
int 4
int 0
; makes a counter here, and a reference to it
func 2 0 here:0 int
  NEW 1 0 0
  GNEW 1 1
  RET 1
end
; prints the chosen counter if it is here: the first where the number is 0
func 5 0 none gref:0 gref:0 int
  JZ 2 @first
  MOVE 3 1
  JMP @chosen
first:
  IFHERE 0 @out
  MOVE 3 0
chosen:
  GOPEN 4 3
  GET 4 4 0
  PRINT 4
out:
  RET 0
end
; main makes a counter at each place, and calls the function twice at place 0, with both choices
func 5 0 none
  INTK 3 0
  CALL 0 3 0
  PLACEK 4 1
  INTK 3 1
  AT 1 3 4 0
  INTK 2 2
  CALL 0 0 1
  INTK 2 0
  CALL 0 0 1
  RET 0
end
entry 2
