; Exercise 10: the sum of the numbers of all places. 64 turns are enough for any number of places, and the loop is left
; when the next place is here again.
;
; $ x10p run 10_around.x10
; 0: 0
; $ x10p run 10_around.x10 --places 4
; 0: 6
; $ x10p run 10_around.x10 --places 64
; 0: 2016
places 1
int 0
; the number of the place where it runs
func 1 0 int
  HERE 0
  PLACEI 0 0
  RET 0
end
; main
func 4 1 none
  INTK 0 0
  HERE 1
  LOOP 0 64
place:
  AT 2 0 1 0
  ADD 0 0 2
  NEXTP 1 1
  IFHERE 1 @on
  JMP @home
on:
  ENDL 0 @place
home:
  PRINT 0
  RET 0
end
entry 1
