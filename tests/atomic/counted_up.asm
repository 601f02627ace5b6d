; Two activities count the same counter up, 1,000 times each. Each time reads it, adds 1 and puts the sum back inside an
; atomic region, and no other activity of the place makes a step meanwhile. So no sum is lost, whatever the schedule.
;
; $ x10p bounds counted_up.x10
; 0 6003
; 1 9
; $ x10p run counted_up.x10
; 0: 2000
; $ x10p run counted_up.x10 --threads
; 0: 2000
; 5 times
version 2
places 1
class int
int 0
int 1
func 3 1 none obj:0
  INTK 2 1
  LOOP 0 1000
again:
  ATOMB
  GET 1 0 0
  ADD 1 1 2
  PUT 0 1 0
  ATOME
  ENDL 0 @again
  RET 0
end
func 2 0 none
  INTK 0 0
  NEW 1 0 0
  FINB
  ASYNC 1 0
  ASYNC 1 0
  FINE
  GET 0 1 0
  PRINT 0
  RET 0
end
entry 1
