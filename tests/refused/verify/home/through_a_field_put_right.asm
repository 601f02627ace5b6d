; What comes from the field is asked for its home again.
;
; $ x10p verify through_a_field_put_right.x10
; verified 5 functions, entry bound 8
; $ x10p run through_a_field_put_right.x10
; takes 18 events
places 2
class int
class gref:0
class place
int 3
int 7
; reads the object of a reference whose home is here
func 3 0 int here:0
  GOPEN 1 0
  GET 2 1 0
  RET 2
end
; prints it
func 2 0 none here:0
  GOPEN 1 0
  GET 1 1 0
  PRINT 1
  RET 0
end
; makes an object and a reference to it
func 2 0 here:0
  INTK 0 0
  NEW 0 0 0
  GNEW 1 0
  RET 1
end
; what the student wrote
func 6 1 none gref:0 gref:0
  IFHERE 0 @out
  NEW 2 0 1
  GET 3 2 0
  IFHERE 3 @out
  GOPEN 4 3
out:
  RET 0
end
; main
func 5 0 none
  INTK 0 1
  NEW 1 0 0
  GNEW 2 1
  MOVE 3 2
  PLACEK 4 1
  ATA 2 4 3
  ASYNC 2 3
  RET 0
end
entry 4
