; Two activities count the same object up. In rounds, and where activities go by turns, both read 0, and one update is lost. A
; random order may let one end before the other begins.
;
; $ x10p run lost_update.x10
; 0: 1
; $ x10p run lost_update.x10 --schedule rounds
; 0: 1
; $ x10p run lost_update.x10 --schedule oldest
; 0: 1
; $ x10p run lost_update.x10 --seed 1
; 0: 2
places 1
class int
int 0
int 1
func 3 0 none obj:0
  GET 1 0 0
  INTK 2 1
  ADD 1 1 2
  PUT 0 1 0
  RET 0
end
func 2 0 none
  INTK 0 0
  NEW 1 0 0
  FINB
  ASYNC 1 0
  ASYNC 1 0
  FINE
  GET 0 1 0
  PRINT 0
  RET 0
end
entry 1
