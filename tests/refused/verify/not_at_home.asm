; A global reference is opened, and nothing says that its home is here: the parameter may come from anywhere.
;
; $ x10p verify not_at_home.x10
; status 1: verify: Home 0 0
places 1
class int
func 3 0 int gref:0
  GOPEN 1 0
  GET 2 1 0
  RET 2
end
func 1 0 none
  RET 0
end
entry 1
