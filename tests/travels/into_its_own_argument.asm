; The result may come into a register that held an argument, and into the one that held the place.
;
; $ x10p bounds into_its_own_argument.x10
; 0 4
; 1 2
; 2 14
; $ x10p run into_its_own_argument.x10
; 0: 42
; 0: 2
; takes 24 events
places 3
int 40
; what it was given, and ten times the number of the place
func 2 0 int int
  HERE 1
  PLACEI 1 1
  ADD 0 0 1
  RET 0
end
; the place where it is called
func 1 0 place
  HERE 0
  RET 0
end
; main
func 2 0 none
  INTK 0 0
  PLACEK 1 2
  AT 0 0 1 0
  PRINT 0
  AT 1 0 1 1
  PLACEI 0 1
  PRINT 0
  RET 0
end
entry 2
