; Where two activities count up inside an atomic region, no order loses an update: ../schedules/lost_update.asm is the same without
; one.
;
; $ x10p run region.x10 --seed 1
; 0: 2
; $ x10p run region.x10 --seed 2
; 0: 2
; $ x10p run region.x10 --seed 3
; 0: 2
; $ x10p run region.x10 --schedule oldest
; 0: 2
version 2
places 1
class int
int 0
int 1
func 3 0 none obj:0
  INTK 2 1
  ATOMB
  GET 1 0 0
  ADD 1 1 2
  PUT 0 1 0
  ATOME
  RET 0
end
func 2 0 none
  INTK 0 0
  NEW 1 0 0
  FINB
  ASYNC 1 0
  ASYNC 1 0
  FINE
  GET 0 1 0
  PRINT 0
  RET 0
end
entry 1
