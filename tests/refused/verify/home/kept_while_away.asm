; Main makes the object at place 0 and opens its reference in the function that AT calls: there the home is elsewhere.
;
; $ x10p verify kept_while_away.x10
; status 1: verify: Home 0 0
places 2
class int
int 7
func 2 0 none gref:0
  GOPEN 1 0
  RET 0
end
; main
func 4 0 none
  INTK 0 0
  NEW 1 0 0
  GNEW 2 1
  PLACEK 3 1
  AT 0 2 3 0
  GOPEN 1 2
  GET 0 1 0
  PRINT 0
  RET 0
end
entry 1
