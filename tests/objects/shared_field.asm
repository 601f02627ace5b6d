; Two objects share a third: what is put into it through a field of the one is got through a field of the
; other. Then the one gets another in its place, and the other keeps what it had.
;
; $ x10p bounds shared_field.x10
; 0 3
; 1 26
; $ x10p run shared_field.x10
; 0: 2
; 0: 3
; 0: 2
; takes 26 events
places 1
class int
class obj:0
int 1
int 2
int 3
; what stands in the object that is shared
func 2 0 int obj:1
  GET 0 0 0
  GET 1 0 0
  RET 1
end
func 7 0 none
  INTK 0 0
  NEW 1 0 0
  NEW 2 1 1
  NEW 3 1 1
; through the one
  GET 4 2 0
  INTK 0 1
  PUT 4 0 0
  CALL 5 3 0
  PRINT 5
; another in its place
  INTK 0 2
  NEW 4 0 0
  PUT 2 4 0
  CALL 5 2 0
  PRINT 5
  CALL 5 3 0
  PRINT 5
  RET 0
end
entry 1
