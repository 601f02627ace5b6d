; IFHERE says that the home of register 0 is here. What is moved there afterwards may have another home.
;
; $ x10p verify home_forgotten.x10
; status 1: verify: Home 0 2
places 1
class int
int 0
func 3 0 int gref:0 gref:0
  IFHERE 0 @elsewhere
  MOVE 0 1
  GOPEN 2 0
  GET 2 2 0
  RET 2
elsewhere:
  INTK 2 0
  RET 2
end
func 1 0 none
  RET 0
end
entry 1
