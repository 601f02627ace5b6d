; An activity that sends itself round, by AT: it calls a function at the next place, which calls one at the place
; after that, and so on, until it has seen four places. At each of them it has a stay that waits. Then the results
; come back by the way that it went, and each place adds its own number. A function may name by AT only one of a
; smaller number, so there is a function for each hop, and the bound of main, which `x10p bounds` tells, has the steps
; of all of them.
;
; $ x10p bounds round_trip.x10
; 0 4
; 1 12
; 2 20
; 3 25
; $ x10p run round_trip.x10
; 0: 6
; 1: 1
; 1: 6
; 2: 2
; 2: 5
; 3: 3
; takes 64 events
places 4
func 2 0 int
  HERE 0
  PLACEI 0 0
  PRINT 0
  RET 0
end
func 3 0 int
  HERE 0
  PLACEI 1 0
  PRINT 1
  NEXTP 0 0
  AT 2 0 0 0
  ADD 1 1 2
  PRINT 1
  RET 1
end
func 3 0 int
  HERE 0
  PLACEI 1 0
  PRINT 1
  NEXTP 0 0
  AT 2 0 0 1
  ADD 1 1 2
  PRINT 1
  RET 1
end
; main
func 3 0 none
  HERE 0
  NEXTP 0 0
  AT 1 0 0 2
  PRINT 1
  RET 0
end
entry 3
