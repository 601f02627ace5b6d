; A global reference and a place stand in fields. Nothing is known of the home of what comes out of a field, so
; IFHERE asks.
;
; $ x10p bounds in_a_field.x10
; 0 17
; $ x10p run in_a_field.x10
; 0: 7
; 0: 0
; takes 14 events
places 1
class gref:1 place
class int
int 7
int 0
func 6 0 none
  INTK 0 0
  NEW 1 0 1
  GNEW 2 1
  HERE 3
  NEW 4 2 0
  GET 5 4 0
  IFHERE 5 @elsewhere
  GOPEN 5 5
  GET 0 5 0
  PRINT 0
  GET 3 4 1
  PLACEI 0 3
  PRINT 0
  RET 0
elsewhere:
  INTK 0 1
  PRINT 0
  RET 0
end
entry 0
