; Two global references name one object. What is written through one is read through the other, and their home is here.
;
; $ x10p bounds opened_at_home.x10
; 0 17
; $ x10p run opened_at_home.x10
; 0: 40
; 0: 42
; 0: 0
; takes 17 events
places 1
class int
int 40
int 2
func 6 0 none
  INTK 0 0
  NEW 1 0 0
  GNEW 2 1
  GNEW 3 1
  GOPEN 4 2
  GET 5 4 0
  PRINT 5
  INTK 0 1
  ADD 0 5 0
  GOPEN 4 3
  PUT 4 0 0
  GET 5 1 0
  PRINT 5
  HOME 0 2
  PLACEI 5 0
  PRINT 5
  RET 0
end
entry 0
