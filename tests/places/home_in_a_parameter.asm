; A parameter `here:0` is a global reference whose home is here. So it can be opened without a question.
;
; $ x10p bounds home_in_a_parameter.x10
; 0 3
; 1 9
; $ x10p run home_in_a_parameter.x10
; 0: 9
; takes 9 events
places 1
class int
int 9
func 3 0 int here:0
  GOPEN 1 0
  GET 2 1 0
  RET 2
end
func 3 0 none
  INTK 0 0
  NEW 1 0 0
  GNEW 0 1
  CALL 1 0 0
  PRINT 1
  RET 0
end
entry 1
