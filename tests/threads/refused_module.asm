; What the verifier refuses isn't run with threads either.
;
; $ x10p run refused_module.x10 --threads
; status 1: verify: Unset 0 0
; $ x10p verify refused_module.x10
; status 1: verify: Unset 0 0
places 1
func 1 0 none
  PRINT 0
  RET 0
end
entry 0
