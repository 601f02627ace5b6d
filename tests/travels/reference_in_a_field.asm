; An object that is sent along has a global reference in a field. The copy's reference names the same object at place
; 0.
;
; $ x10p bounds reference_in_a_field.x10
; 0 3
; 1 8
; 2 18
; $ x10p run reference_in_a_field.x10
; 0: 64
; takes 31 events
places 2
class int
class gref:0 int
int 1
int 64
; sets the object's field
func 3 0 none here:0 int
  GOPEN 2 0
  PUT 2 1 0
  RET 0
end
; goes to the home of what is in the field
func 4 0 none obj:1
  GET 1 0 0
  HOME 3 1
  GET 2 0 1
  AT 0 1 3 0
  RET 0
end
; main
func 6 0 none
  INTK 0 0
  NEW 1 0 0
  GNEW 2 1
  INTK 3 1
  NEW 4 2 1
  PLACEK 5 1
  AT 0 4 5 1
  GET 0 1 0
  PRINT 0
  RET 0
end
entry 2
