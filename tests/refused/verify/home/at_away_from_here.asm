; The reference's home is here. AT goes to the place in register 0, which may be another one: the function is verified
; by itself.
;
; $ x10p verify at_away_from_here.x10
; status 1: verify: Home 1 0
places 2
class int
int 7
; reads the object of a reference whose home is here
func 3 0 int here:0
  GOPEN 1 0
  GET 2 1 0
  RET 2
end
; what the student wrote
func 3 0 none place here:0
  AT 2 1 0 0
  PRINT 2
  RET 0
end
; main
func 4 0 none
  INTK 0 0
  NEW 0 0 0
  GNEW 1 0
  HERE 0
  CALL 0 0 1
  RET 0
end
entry 2
