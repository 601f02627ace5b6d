; A function is looked at by itself. That its callers are all at the reference's home isn't known in it.
;
; $ x10p verify parameter_of_any_home.x10
; status 1: verify: Home 0 0
places 1
class int
int 7
func 2 0 none gref:0
  GOPEN 1 0
  GET 1 1 0
  PRINT 1
  RET 0
end
; main
func 3 0 none
  INTK 0 0
  NEW 1 0 0
  GNEW 2 1
  CALL 0 2 0
  RET 0
end
entry 1
