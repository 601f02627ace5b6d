; A loop of 5 turns goes to the next place each time, and sums what it hears there. With fewer places it comes to some
; of them again.
;
; $ x10p bounds sum_of_places.x10
; 0 3
; 1 40
; $ x10p run sum_of_places.x10
; 0: 0
; takes 65 events
; $ x10p run sum_of_places.x10 --places 2
; 0: 2
; takes 65 events
; $ x10p run sum_of_places.x10 --places 3
; 0: 4
; takes 65 events
; $ x10p run sum_of_places.x10 --places 5
; 0: 10
; takes 65 events
; $ x10p run sum_of_places.x10 --places 64
; 0: 10
; takes 65 events
places 1
int 0
; the number of this place
func 1 0 int
  HERE 0
  PLACEI 0 0
  RET 0
end
; main
func 4 1 none
  INTK 0 0
  HERE 1
  LOOP 0 5
again:
  AT 2 0 1 0
  ADD 0 0 2
  NEXTP 1 1
  ENDL 0 @again
  PRINT 0
  RET 0
end
entry 1
