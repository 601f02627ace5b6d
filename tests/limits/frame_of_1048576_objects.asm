; The most objects that a frame takes along: a list of 1,048,576 of them goes to place 1. With one more the run stops
; (`frame_of_1048577_objects.asm`).
;
; $ x10p run frame_of_1048576_objects.x10 --limit 4000000
; 1: 1
places 2
class opt:0
int 1
; prints 1 where there is a first object
func 1 0 none opt:0
  IFOBJ 0 0 @out
  INTK 0 0
  PRINT 0
out:
  RET 0
end
; main
func 3 2 none
  NULL 0 0
  LOOP 0 1024
outer:
  LOOP 1 1024
again:
  NEW 1 0 0
  MOVE 0 1
  ENDL 1 @again
  ENDL 0 @outer
  PLACEK 1 1
  AT 0 0 1 0
  RET 0
end
entry 1
