; An activity is at the place of the one that started it, however many places there are.
;
; $ x10p run here_is_the_same.x10
; 0: 0
; 0: 1
; takes 10 events
; $ x10p run here_is_the_same.x10 --places 64
; 0: 0
; 0: 64
; takes 10 events
places 1
func 2 0 none place
  HERE 1
  IFSAME 0 1 @out
  PLACEI 1 1
  PRINT 1
  COUNT 1
  PRINT 1
out:
  RET 0
end
; main
func 1 0 none
  HERE 0
  ASYNC 0 0
  RET 0
end
entry 1
