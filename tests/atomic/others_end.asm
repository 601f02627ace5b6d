; The activity inside is the last one that its place has: main has ended, and so have the others. The run ends with it.
;
; $ x10p run others_end.x10
; 0: 5
; 0: 5
version 2
places 1
int 5
func 1 1 none
  INTK 0 0
  LOOP 0 2
again:
  ATOMB
  PRINT 0
  ATOME
  ENDL 0 @again
  RET 0
end
func 1 0 none
  ASYNC 0 0
  RET 0
end
entry 1
