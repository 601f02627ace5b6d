; Main is away at place 1 from inside its own finish, and from there starts an activity at place 0, where its other
; stay waits.
;
; $ x10p bounds away_inside_its_own_finish.x10
; 0 2
; 1 4
; 2 13
; $ x10p run away_inside_its_own_finish.x10
; 0: 10
; 0: 20
; 0: 30
; takes 22 events
places 2
int 10
int 30
func 1 0 none int
  PRINT 0
  RET 0
end
func 2 0 int place
  INTK 1 0
  ATA 1 0 0
  ADD 1 1 1
  RET 1
end
; main
func 3 0 none
  HERE 0
  PLACEK 1 1
  FINB
  AT 2 0 1 1
  PRINT 2
  FINE
  INTK 2 1
  PRINT 2
  RET 0
end
entry 2
