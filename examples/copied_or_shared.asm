; A copy whose change isn't seen. The same function adds 1 to the same object three times: once by CALL, once as an
; activity by ASYNC, and once by AT. CALL and ASYNC share the object, so their changes are seen. AT copies it, even
; though the place is the one where main is: the function adds 1 to the copy, prints 4, and the copy is forgotten.
;
; $ x10p run copied_or_shared.x10
; 0: 2
; 0: 2
; 0: 3
; 0: 3
; 0: 4
; 0: 3
places 1
class int
int 1
func 3 0 none obj:0
  GET 1 0 0
  INTK 2 0
  ADD 1 1 2
  PUT 0 1 0
  PRINT 1
  RET 0
end
; main
func 3 0 none
  INTK 0 0
  NEW 1 0 0
  CALL 0 1 0
  GET 0 1 0
  PRINT 0
  FINB
  ASYNC 1 0
  FINE
  GET 0 1 0
  PRINT 0
  HERE 2
  AT 0 1 2 0
  GET 0 1 0
  PRINT 0
  RET 0
end
entry 1
