; An object with two fields for objects: null stays null, and two fields with one object still have one.
;
; $ x10p bounds null_and_shared.x10
; 0 12
; 1 22
; $ x10p run null_and_shared.x10
; 0: 1
; 1: 5
; takes 34 events
places 2
class int
class opt:0 opt:0 opt:0
int 5
int 1
func 6 0 none obj:1
  GET 1 0 0
  IFOBJ 2 1 @null
  RET 0
null:
  GET 1 0 1
  IFOBJ 2 1 @out
  GET 3 0 2
  IFOBJ 4 3 @out
  INTK 5 0
  PUT 2 5 0
  GET 5 4 0
  PRINT 5
out:
  RET 0
end
; main
func 6 0 none
  NULL 0 0
  INTK 3 1
  NEW 1 3 0
  MOVE 2 1
  NEW 4 0 1
  PLACEK 5 1
  AT 0 4 5 0
  GET 3 1 0
  PRINT 3
  RET 0
end
entry 1
