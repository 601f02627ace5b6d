; A function with a region is called, outside of any region. Its caller has one too, in a finish.
;
; $ x10p bounds in_a_called_function.x10
; 0 6
; 1 17
; $ x10p run in_a_called_function.x10
; 0: 1
version 2
places 1
class int
int 0
int 1
func 3 0 int obj:0
  ATOMB
  GET 1 0 0
  INTK 2 1
  ADD 1 1 2
  ATOME
  RET 1
end
func 3 0 none
  INTK 0 0
  NEW 1 0 0
  FINB
  CALL 0 1 0
  ATOMB
  PUT 1 0 0
  ATOME
  FINE
  GET 2 1 0
  PRINT 2
  RET 0
end
entry 1
