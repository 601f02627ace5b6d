; The limit is met when main's frame has just been put out and is on its way to place 1 (4 events), while main is
; there (8), and when its result is on its way back (10). What was printed until then stands there.
;
; $ x10p run limit_in_flight.x10
; 0: 0
; 0: 1
; 1: 1
; takes 14 events
; $ x10p run limit_in_flight.x10 --limit 4
; 0: 0
; status 2: limit
; $ x10p run limit_in_flight.x10 --limit 8
; 0: 0
; 1: 1
; status 2: limit
; $ x10p run limit_in_flight.x10 --limit 10
; 0: 0
; 1: 1
; status 2: limit
places 2
int 1
int 0
func 1 0 int
  INTK 0 0
  PRINT 0
  RET 0
end
; main
func 2 0 none
  INTK 0 1
  PRINT 0
  PLACEK 0 1
  AT 1 0 0 0
  PRINT 1
  RET 0
end
entry 1
