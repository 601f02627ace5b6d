; The fields of a new object are the registers in their order; a put changes one field of one object, and
; no other.
;
; $ x10p bounds fields_in_order.x10
; 0 7
; 1 31
; $ x10p run fields_in_order.x10
; 0: 1
; 0: 2
; 0: 3
; 0: 1
; 0: 3
; 0: 3
; 0: 1
; 0: 2
; 0: 3
; takes 31 events
places 1
class int int int
int 1
int 2
int 3
; prints the fields
func 2 0 none obj:0
  GET 1 0 0
  PRINT 1
  GET 1 0 1
  PRINT 1
  GET 1 0 2
  PRINT 1
  RET 0
end
; main
func 5 0 none
  INTK 0 0
  INTK 1 1
  INTK 2 2
  NEW 3 0 0
  NEW 4 0 0
  CALL 0 3 0
; the second field of the one object is 3 from now on
  PUT 3 2 1
  CALL 0 3 0
  CALL 0 4 0
  RET 0
end
entry 1
