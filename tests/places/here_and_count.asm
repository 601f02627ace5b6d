; HERE is the place where main is, 0. COUNT is the number of places of the run.
;
; $ x10p bounds here_and_count.x10
; 0 6
; $ x10p run here_and_count.x10
; 0: 0
; 0: 1
; takes 6 events
; $ x10p run here_and_count.x10 --places 3
; 0: 0
; 0: 3
; takes 6 events
places 1
func 2 0 none
  HERE 0
  PLACEI 1 0
  PRINT 1
  COUNT 1
  PRINT 1
  RET 0
end
entry 0
