; Doubles 1 ten times. `@again` is the line `again:`, to which ENDL goes back until the loop of ten
; turns is over. No run can take more than 24 steps, which is known before it begins.
;
; $ x10p verify doubles.x10
; verified 1 functions, entry bound 24
; $ x10p run doubles.x10
; 0: 1024
; takes 24 events
places 1
int 1
func 1 1 none
  INTK 0 0
  LOOP 0 10
again:
  ADD 0 0 0
  ENDL 0 @again
  PRINT 0
  RET 0
end
entry 0
