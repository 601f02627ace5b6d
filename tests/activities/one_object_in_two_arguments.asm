; The same object in two arguments of an activity is one object there, and main's too.
;
; $ x10p run one_object_in_two_arguments.x10
; 0: 2
; 0: 3
; takes 23 events
places 1
class int
int 1
int 2
int 3
func 3 0 none obj:0 obj:0
  INTK 2 1
  PUT 0 2 0
  GET 2 1 0
  PRINT 2
  INTK 2 2
  PUT 1 2 0
  RET 0
end
; main
func 3 0 none
  INTK 2 0
  NEW 0 2 0
  MOVE 1 0
  FINB
  ASYNC 0 0
  FINE
  GET 2 0 0
  PRINT 2
  RET 0
end
entry 1
