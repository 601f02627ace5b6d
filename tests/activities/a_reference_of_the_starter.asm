; A global reference that an activity is given names the object of its starter, at the same place: IFHERE goes on, and
; what the activity writes main reads. Where the parameter has the home flag no question is needed.
;
; $ x10p run a_reference_of_the_starter.x10
; 0: 2
; 0: 3
; takes 32 events
; $ x10p run a_reference_of_the_starter.x10 --places 3
; 0: 2
; 0: 3
; takes 32 events
places 1
class int
int 1
int 2
int 3
func 2 0 none gref:0
  IFHERE 0 @out
  GOPEN 0 0
  INTK 1 1
  PUT 0 1 0
out:
  RET 0
end
func 2 0 none here:0
  GOPEN 0 0
  INTK 1 2
  PUT 0 1 0
  RET 0
end
; main
func 3 0 none
  INTK 2 0
  NEW 0 2 0
  GNEW 1 0
  FINB
  ASYNC 1 0
  FINE
  GET 2 0 0
  PRINT 2
  FINB
  ASYNC 1 1
  FINE
  GET 2 0 0
  PRINT 2
  RET 0
end
entry 2
