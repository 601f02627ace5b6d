; A sum that is distributed over places. Each place sums its own part of the numbers from 1 to 400, and main asks one
; place after the other by AT. The part sums are results of AT, so they come back by themselves, and no counter is
; shared. What is distributed here is the data: the places work in turn, as one activity.
;
; $ x10p bounds sum_over_places.x10
; 0 308
; 1 1257
; $ x10p run sum_over_places.x10
; 0: 5050
; 0: 15050
; 0: 25050
; 0: 35050
; 0: 80200
; takes 2497 events
places 4
int 100
int 1
int 0
; the sum of a hundred numbers, from a hundred times the place's number on
func 6 1 int
  HERE 0
  PLACEI 1 0
  INTK 2 0
  MUL 1 1 2
  INTK 2 1
  INTK 3 2
  LOOP 0 100
again:
  ADD 1 1 2
  ADD 3 3 1
  ENDL 0 @again
  RET 3
end
; main
func 3 1 none
  INTK 0 2
  HERE 1
  LOOP 0 4
place:
  AT 2 0 1 0
  PRINT 2
  ADD 0 0 2
  NEXTP 1 1
  ENDL 0 @place
  PRINT 0
  RET 0
end
entry 1
