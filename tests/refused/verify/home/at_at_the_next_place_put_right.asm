; The next place is put into another register, and register 3 is the home still.
;
; $ x10p verify at_at_the_next_place_put_right.x10
; verified 5 functions, entry bound 8
; $ x10p run at_at_the_next_place_put_right.x10
; takes 33 events
places 2
class int
class gref:0
class place
int 3
int 7
; reads the object of a reference whose home is here
func 3 0 int here:0
  GOPEN 1 0
  GET 2 1 0
  RET 2
end
; prints it
func 2 0 none here:0
  GOPEN 1 0
  GET 1 1 0
  PRINT 1
  RET 0
end
; makes an object and a reference to it
func 2 0 here:0
  INTK 0 0
  NEW 0 0 0
  GNEW 1 0
  RET 1
end
; what the student wrote
func 6 1 none gref:0 gref:0
  HOME 3 0
  NEXTP 4 3
  AT 2 0 3 0
  RET 0
end
; main
func 5 0 none
  INTK 0 1
  NEW 1 0 0
  GNEW 2 1
  MOVE 3 2
  PLACEK 4 1
  ATA 2 4 3
  ASYNC 2 3
  RET 0
end
entry 4
