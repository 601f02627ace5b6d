; The counter of `remote_counter.asm`, but the client opens the reference where it is, at place 1, and the object
; isn't there. The verifier says so before the run, with the place in the code: in function 0, at instruction 0,
; nothing says that the home of the reference is the place where the function runs.
;
; $ x10p run counter_refused.x10
; status 1: verify: Home 0 0
places 2
class int
int 1
int 0
; runs at place 1
func 4 0 none gref:0
  GOPEN 1 0
  GET 2 1 0
  INTK 3 0
  ADD 2 2 3
  PUT 1 2 0
  RET 0
end
; main
func 4 0 none
  INTK 0 1
  NEW 1 0 0
  GNEW 2 1
  PLACEK 3 1
  FINB
  ATA 2 3 0
  FINE
  GET 0 1 0
  PRINT 0
  RET 0
end
entry 1
