; AT to the place where one is copies too: the object that the function changes is another one. CALL shares it.
;
; $ x10p bounds at_to_here_copies.x10
; 0 3
; 1 16
; $ x10p run at_to_here_copies.x10
; 0: 1
; 0: 9
; takes 21 events
; $ x10p run at_to_here_copies.x10 --places 3
; 0: 1
; 0: 9
; takes 21 events
places 1
class int
int 9
int 1
; sets the field to 9
func 2 0 none obj:0
  INTK 1 0
  PUT 0 1 0
  RET 0
end
; main
func 4 0 none
  INTK 0 1
  NEW 1 0 0
  HERE 2
  AT 0 1 2 0
  GET 3 1 0
  PRINT 3
  CALL 0 1 0
  GET 3 1 0
  PRINT 3
  RET 0
end
entry 1
