; The key of an activity that has ended is used again. Two activities print 1 and 2; the first ends, and the third gets
; its key, so that its 3 stands before the 2 in each round from then on, though the second was started earlier.
;
; $ x10p run key_used_again.x10
; 0: 1
; 0: 2
; 0: 2
; 0: 3
; 0: 2
; 0: 3
; 0: 2
; 0: 3
; 0: 2
; 0: 3
; 0: 2
; 0: 3
; 0: 3
; takes 24 events
places 1
int 1
int 2
int 3
; prints its number once
func 1 0 none int
  PRINT 0
  RET 0
end
; prints its number six times in a row
func 1 0 none int
  PRINT 0
  PRINT 0
  PRINT 0
  PRINT 0
  PRINT 0
  PRINT 0
  RET 0
end
; main
func 3 0 none
  INTK 0 0
  INTK 1 1
  INTK 2 2
  ASYNC 0 0
  ASYNC 1 1
  MOVE 0 0
  ASYNC 2 1
  RET 0
end
entry 2
