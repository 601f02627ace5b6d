; The parameter has the home flag: now each caller has to show it.
;
; $ x10p verify parameter_of_any_home_put_right.x10
; verified 2 functions, entry bound 9
; $ x10p run parameter_of_any_home_put_right.x10
; 0: 7
; takes 9 events
places 1
class int
int 7
func 2 0 none here:0
  GOPEN 1 0
  GET 1 1 0
  PRINT 1
  RET 0
end
; main
func 3 0 none
  INTK 0 0
  NEW 1 0 0
  GNEW 2 1
  CALL 0 2 0
  RET 0
end
entry 1
