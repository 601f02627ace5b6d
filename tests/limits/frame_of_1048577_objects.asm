; A frame takes along 1,048,576 objects at most. This list has one more: the run stops at the AT, by limit 7.
;
; $ x10p run --explain frame_of_1048577_objects.x10 --limit 4000000
; 0: 3
; status 2: stop: Limit 7
; > There may be 1048576 objects in one frame at most, and the next event would make one more.
; > Idle events: 0 of 3147783.
; > Who lives then:
; >   main at place 0: function 1, instruction 12 (AT)
; > Activities that can move: 1 of 1.
places 2
class opt:0
int 3
func 1 0 none opt:0
  RET 0
end
; main
func 3 2 none
  INTK 2 0
  PRINT 2
  NULL 0 0
  LOOP 0 1024
outer:
  LOOP 1 1024
again:
  NEW 1 0 0
  MOVE 0 1
  ENDL 1 @again
  ENDL 0 @outer
  NEW 1 0 0
  MOVE 0 1
  PLACEK 1 1
  AT 0 0 1 0
  RET 0
end
entry 1
