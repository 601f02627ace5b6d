; The activities of counted_up.asm without their regions. In rounds both read the counter before either puts its sum
; back, so one sum is lost each time.
;
; $ x10p bounds counted_up_without.x10
; 0 4003
; 1 9
; $ x10p run counted_up_without.x10
; 0: 1000
version 2
places 1
class int
int 0
int 1
func 3 1 none obj:0
  INTK 2 1
  LOOP 0 1000
again:
  GET 1 0 0
  ADD 1 1 2
  PUT 0 1 0
  ENDL 0 @again
  RET 0
end
func 2 0 none
  INTK 0 0
  NEW 1 0 0
  FINB
  ASYNC 1 0
  ASYNC 1 0
  FINE
  GET 0 1 0
  PRINT 0
  RET 0
end
entry 1
