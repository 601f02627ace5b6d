; An activity starts another one, which gets a key above its own that was used before. The new one waits for the next
; round all the same, in which its starter comes first: it prints 1, and the new one 2.
;
; $ x10p run key_above_its_starter.x10
; 0: 1
; 0: 2
; takes 15 events
places 1
int 1
int 2
; has ended when the other one starts its own
func 1 0 none
  RET 0
end
; prints 2
func 1 0 none int
  PRINT 0
  RET 0
end
; the starter
func 2 0 none
  INTK 0 0
  INTK 1 1
  ASYNC 1 1
  PRINT 0
  RET 0
end
; main
func 1 0 none
  ASYNC 0 2
  ASYNC 0 0
  FINB
  FINE
  FINB
  FINE
  RET 0
end
entry 3
