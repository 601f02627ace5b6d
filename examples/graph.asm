; A cyclic graph is sent along. AT copies all that its arguments reach, and keeps its shape: two objects that name
; each other arrive as two objects that name each other, and a third that both name arrives once. The copies are other
; objects. What place 1 puts into them isn't seen at place 0.
;
; $ x10p run graph.x10
; 0: 1
; 1: 50
; takes 36 events
places 2
class int
class obj:0 opt:1
int 50
int 1
; walks from one object to the other and back, and writes by one way what it reads by the other
func 6 0 none obj:1
  GET 1 0 1
  IFOBJ 2 1 @out
  GET 1 2 1
  IFOBJ 3 1 @out
; register 3 is the first object again: what is written by it is read by register 2
  INTK 4 0
  GET 5 3 0
  PUT 5 4 0
  GET 5 2 0
  GET 4 5 0
  PRINT 4
out:
  RET 0
end
; main
func 7 0 none
  INTK 0 1
; the object that both name
  NEW 1 0 0
  NULL 2 1
  NEW 3 1 1
  MOVE 2 3
  NEW 4 1 1
; and back: 3 and 4 name each other
  PUT 3 4 1
  PLACEK 5 1
  AT 0 3 5 0
  GET 6 1 0
  PRINT 6
  RET 0
end
entry 1
