; The function asks for the reference's home itself.
;
; $ x10p verify place_of_the_caller_put_right.x10
; verified 3 functions, entry bound 13
; $ x10p run place_of_the_caller_put_right.x10
; 0: 7
; takes 18 events
places 2
class int
int 7
func 3 0 int here:0
  GOPEN 1 0
  GET 2 1 0
  RET 2
end
; goes to the place, with the reference
func 3 0 int place gref:0
  HOME 0 1
  AT 2 1 0 0
  RET 2
end
; main
func 4 0 none
  INTK 0 0
  NEW 1 0 0
  GNEW 3 1
  HOME 2 3
  CALL 0 2 1
  PRINT 0
  RET 0
end
entry 2
