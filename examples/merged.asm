; The repair of `merged_refused.asm`: the reference that was chosen is asked for its home, behind the label where the
; ways come together. The counter of place 0 is printed, and the one of place 1 isn't, since the function is called at
; place 0.
;
; $ x10p run merged.x10
; 0: 3
places 2
class int
int 3
int 4
int 0
; makes a counter here, and a reference to it
func 2 0 here:0 int
  NEW 1 0 0
  GNEW 1 1
  RET 1
end
; prints the chosen counter if it is here: the first where the number is 0
func 5 0 none gref:0 gref:0 int
  JZ 2 @first
  MOVE 3 1
  JMP @chosen
first:
  MOVE 3 0
chosen:
  IFHERE 3 @out
  GOPEN 4 3
  GET 4 4 0
  PRINT 4
out:
  RET 0
end
; main makes a counter at each place, and calls the function twice at place 0, with both choices
func 5 0 none
  INTK 3 0
  CALL 0 3 0
  PLACEK 4 1
  INTK 3 1
  AT 1 3 4 0
  INTK 2 2
  CALL 0 0 1
  INTK 2 0
  CALL 0 0 1
  RET 0
end
entry 2
