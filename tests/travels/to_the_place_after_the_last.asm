; From the last place NEXTP goes on to place 0. An activity that goes round by AT is at each place in turn.
;
; $ x10p run to_the_place_after_the_last.x10
; {{6 * 0: 0}}
; takes 75 events
; $ x10p run to_the_place_after_the_last.x10 --places 2
; 0: 1
; 0: 0
; 0: 1
; 0: 0
; 0: 1
; 0: 0
; takes 75 events
; $ x10p run to_the_place_after_the_last.x10 --places 5
; 0: 1
; 0: 2
; 0: 3
; 0: 4
; 0: 0
; 0: 1
; takes 75 events
places 1
func 1 0 int
  HERE 0
  PLACEI 0 0
  RET 0
end
; main
func 3 1 none
  HERE 0
  LOOP 0 6
again:
  NEXTP 0 0
  AT 1 0 0 0
  PRINT 1
  ENDL 0 @again
  RET 0
end
entry 1
