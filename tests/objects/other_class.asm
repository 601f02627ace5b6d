; A class may name itself and one that comes later. Objects of several classes don't get in one another's
; way: each has its own fields.
;
; $ x10p bounds other_class.x10
; 0 20
; $ x10p run other_class.x10
; 0: 1
; 0: 2
; 0: 3
; 0: three
; takes 20 events
places 1
class obj:1 int
class opt:0 text obj:2
class int int
int 1
int 2
int 3
text "three"
func 9 0 none
; an object of class 2, then one of class 1, and one of class 0
  INTK 0 0
  INTK 1 1
  NEW 2 0 2
  MOVE 3 2
  NULL 1 0
  TEXTK 2 0
  NEW 5 1 1
  INTK 6 2
  NEW 7 5 0
; from the last of them to the first
  GET 8 7 0
  GET 5 8 2
  GET 0 5 0
  PRINT 0
  GET 0 5 1
  PRINT 0
  GET 0 7 1
  PRINT 0
  GET 0 8 1
  PRINT 0
  RET 0
end
entry 0
