; The object at place 1 is a copy: it has the field's value at the moment of the AT, and what is put into it there
; isn't seen at place 0.
;
; $ x10p bounds argument_is_a_copy.x10
; 0 7
; 1 14
; $ x10p run argument_is_a_copy.x10
; 0: 1
; 1: 1
; 1: 9
; takes 23 events
places 2
class int
int 9
int 1
; prints the field, and sets it to 9
func 3 0 none obj:0
  GET 1 0 0
  PRINT 1
  INTK 2 0
  PUT 0 2 0
  GET 1 0 0
  PRINT 1
  RET 0
end
; main
func 4 0 none
  INTK 0 1
  NEW 1 0 0
  PLACEK 2 1
  AT 0 1 2 0
  GET 3 1 0
  PRINT 3
  RET 0
end
entry 1
