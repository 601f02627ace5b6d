; Two objects name each other. Their copies do too: after two steps along the cycle one is where one began.
;
; $ x10p bounds cycle_goes_along.x10
; 0 17
; 1 29
; $ x10p run cycle_goes_along.x10
; 0: 1
; 1: 2
; 1: 11
; takes 48 events
places 2
class int opt:0
int 10
int 1
int 2
; adds 10 to the first, and walks two steps
func 4 1 none obj:0
  GET 1 0 0
  INTK 2 0
  ADD 1 1 2
  PUT 0 1 0
  MOVE 3 0
  LOOP 0 2
again:
  GET 1 3 1
  IFOBJ 3 1 @out
  GET 2 3 0
  PRINT 2
  ENDL 0 @again
out:
  RET 0
end
; main
func 6 0 none
  INTK 0 1
  NULL 1 0
  NEW 2 0 0
  INTK 0 2
  MOVE 1 2
  NEW 3 0 0
  PUT 2 3 1
  PLACEK 4 1
  AT 0 2 4 0
  GET 0 2 0
  PRINT 0
  RET 0
end
entry 1
