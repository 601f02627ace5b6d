; `at` that goes and returns with a value: X10's `val box = at (p) new Box(here.id, "made there")`. The object is made
; at place 1 and comes back as a copy, with all that it leads to. From then on main has an object of its own place, and
; works on it directly, as on one that it has made itself.
;
; $ x10p bounds result_object.x10
; 0 5
; 1 17
; $ x10p run result_object.x10
; 0: 1
; 0: made there
; 0: 6
; takes 24 events
places 2
class int text
int 5
text "made there"
; makes the object where it runs
func 2 0 obj:0
  HERE 0
  PLACEI 0 0
  TEXTK 1 0
  NEW 0 0 0
  RET 0
end
; main
func 3 0 none
  PLACEK 0 1
  AT 0 0 0 0
  GET 1 0 0
  PRINT 1
  GET 2 0 1
  PRINT 2
; the object is main's own now
  INTK 2 0
  ADD 1 1 2
  PUT 0 1 0
  GET 1 0 0
  PRINT 1
  RET 0
end
entry 1
