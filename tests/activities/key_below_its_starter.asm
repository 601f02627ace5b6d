; Main has ended, and its activity starts another one, which gets main's key, 0. So the new one comes before its
; starter in each round, and prints 2 before the starter's 1.
;
; $ x10p run key_below_its_starter.x10
; 0: 2
; 0: 1
; takes 9 events
places 1
int 1
int 2
; prints 2
func 1 0 none int
  PRINT 0
  RET 0
end
; the starter
func 2 0 none
  INTK 0 0
  INTK 1 1
  ASYNC 1 0
  PRINT 0
  RET 0
end
; main
func 1 0 none
  ASYNC 0 1
  RET 0
end
entry 2
