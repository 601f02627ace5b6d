; The object goes to place 1, is changed there, and comes back. What comes back is a third object: the first one is as
; it was, and to change one changes no other.
;
; $ x10p bounds result_is_a_copy.x10
; 0 3
; 1 16
; $ x10p run result_is_a_copy.x10
; 0: 1
; 0: 9
; 0: 1
; takes 21 events
places 2
class int
int 9
int 1
int 2
; sets the field to 9, and gives the object back
func 2 0 obj:0 obj:0
  INTK 1 0
  PUT 0 1 0
  RET 0
end
; main
func 5 0 none
  INTK 0 1
  NEW 1 0 0
  PLACEK 2 1
  AT 3 1 2 0
  GET 4 1 0
  PRINT 4
  GET 4 3 0
  PRINT 4
  INTK 0 2
  PUT 3 0 0
  GET 4 1 0
  PRINT 4
  RET 0
end
entry 1
