; Of two free keys the one that was given up last is taken first. Two activities end, that with key 1 and then that with
; key 2. The next two get key 2 and key 1, so that the later one, which prints 2, comes first in each round.
;
; $ x10p run key_given_up_last.x10
; 0: 1
; 0: 2
; 0: 1
; 0: 2
; 0: 1
; 0: 2
; takes 19 events
places 1
int 1
int 2
; ends at once
func 1 0 none
  RET 0
end
; prints its number three times in a row
func 1 0 none int
  PRINT 0
  PRINT 0
  PRINT 0
  RET 0
end
; main
func 2 0 none
  INTK 0 0
  INTK 1 1
  ASYNC 0 0
  ASYNC 0 0
  FINB
  FINE
  ASYNC 0 1
  ASYNC 1 1
  RET 0
end
entry 2
