; What the function returns at the other place is the result of the AT. The steps there are main's own, so its bound
; has them.
;
; $ x10p bounds result_comes_back.x10
; 0 2
; 1 8
; $ x10p run result_comes_back.x10
; 0: 42
; 0: 21
; takes 12 events
places 2
int 21
; doubles a number
func 1 0 int int
  ADD 0 0 0
  RET 0
end
; main
func 3 0 none
  INTK 0 0
  PLACEK 1 1
  AT 2 0 1 0
  PRINT 2
  PRINT 0
  RET 0
end
entry 1
