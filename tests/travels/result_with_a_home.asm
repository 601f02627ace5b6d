; The result of AT is a global reference to an object that was made at place 1. Its home is the place that AT went to,
; so main can go there again and open it.
;
; $ x10p bounds result_with_a_home.x10
; 0 3
; 1 3
; 2 15
; $ x10p run result_with_a_home.x10
; 0: 1
; 0: 77
; takes 25 events
places 2
class int
int 77
; makes an object, and gives a reference to it
func 2 0 here:0 int
  NEW 1 0 0
  GNEW 0 1
  RET 0
end
func 2 0 int here:0
  GOPEN 1 0
  GET 0 1 0
  RET 0
end
; main
func 4 0 none
  INTK 0 0
  PLACEK 1 1
  AT 2 0 1 0
  HOME 3 2
  PLACEI 0 3
  PRINT 0
  AT 0 2 1 1
  PRINT 0
  RET 0
end
entry 2
