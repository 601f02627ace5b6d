; A frame takes along 1,048,576 objects at most. With threads too the run stops at an AT of one more, by limit 7. What main
; printed in an earlier turn is told. The 7 is printed in the turn in which the place stops: this turn isn't posted.
;
; $ x10p run limit_of_a_frame.x10 --threads
; 0: 3
; status 2: stop: Limit 7
; $ x10p run limit_of_a_frame.x10 --limit 4000000
; 0: 3
; 0: 7
; status 2: stop: Limit 7
; $ x10p run limit_of_a_frame.x10 --threads --explain
; 0: 3
; status 2: stop: Limit 7
; > There may be 1048576 objects in one frame at most, and the next event would make one more.
; > With --log LOG it is told too who lives after the turns in the log.
; $ x10p run limit_of_a_frame.x10 --threads --log limit_of_a_frame.log --explain
; 0: 3
; status 2: stop: Limit 7
; > There may be 1048576 objects in one frame at most, and the next event would make one more.
; > Who lives after the turns in the log:
; >   main at place 0: function 1, instruction 5 (NEW)
; > Activities that can move: 1 of 1.
places 2
class opt:0
int 3
int 7
func 1 0 none opt:0
  RET 0
end
; main
func 3 2 none
  INTK 2 0
  PRINT 2
  NULL 0 0
  LOOP 0 1024
outer:
  LOOP 1 1024
again:
  NEW 1 0 0
  MOVE 0 1
  ENDL 1 @again
  ENDL 0 @outer
  NEW 1 0 0
  MOVE 0 1
  INTK 2 1
  PRINT 2
  PLACEK 1 1
  AT 0 0 1 0
  RET 0
end
entry 1
