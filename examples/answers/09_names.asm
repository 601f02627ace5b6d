; Exercise 9: one object with two names travels as one object with two names, and it is a copy.
;
; $ x10p run 09_names.x10
; 0: 1
; 1: 9
places 2
class int
int 1
int 9
func 3 0 none obj:0 obj:0
  INTK 2 1
  PUT 0 2 0
  GET 2 1 0
  PRINT 2
  RET 0
end
func 3 0 none
  INTK 0 0
  NEW 0 0 0
  MOVE 1 0
  PLACEK 2 1
  AT 0 0 2 0
  GET 2 1 0
  PRINT 2
  RET 0
end
entry 1
