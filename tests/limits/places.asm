; A run has 1 to 64 places, and not fewer than the module asks for. What is out of this range at all is a word that
; isn't understood; what this module doesn't permit is the fault `places`.
;
; $ x10p run places.x10
; 0: 3
; 0: 0
; takes 9 events
; $ x10p run places.x10 --places 3
; 0: 3
; 0: 0
; takes 9 events
; $ x10p run places.x10 --places 4
; 0: 4
; 0: 3
; takes 9 events
; $ x10p run places.x10 --places 64
; 0: 64
; 0: 3
; takes 9 events
; $ x10p run places.x10 --places 2
; status 1: places
; $ x10p run places.x10 --places 1
; status 1: places
; $ x10p run places.x10 --places 0
; status 3
; $ x10p run places.x10 --places 65
; status 3
places 3
; main
func 2 0 none
  COUNT 0
  PRINT 0
  HERE 0
  NEXTP 0 0
  NEXTP 0 0
  NEXTP 0 0
  PLACEI 1 0
  PRINT 1
  RET 0
end
entry 0
