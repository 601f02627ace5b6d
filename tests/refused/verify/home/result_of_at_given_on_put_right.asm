; The function promises nothing of its result's home.
;
; $ x10p verify result_of_at_given_on_put_right.x10
; verified 3 functions, entry bound 17
; $ x10p run result_of_at_given_on_put_right.x10
; 0: 0
places 2
class int
int 7
; gives back what it is given, which is of this place
func 1 0 here:0 here:0
  RET 0
end
; what the student wrote
func 3 0 gref:0 place gref:0
  IFSAME 0 1 @other
  AT 2 1 0 0
  RET 2
other:
  INTK 2 0
  NEW 2 2 0
  GNEW 2 2
  RET 2
end
; main
func 4 0 none
  INTK 0 0
  NEW 0 0 0
  GNEW 1 0
  HERE 0
  CALL 2 0 1
  HOME 2 2
  PLACEI 2 2
  PRINT 2
  RET 0
end
entry 2
