; A list of a thousand objects goes to place 1, and its length is counted there.
;
; $ x10p bounds long_list.x10
; 0 8004
; 1 11010
; $ x10p run long_list.x10
; 0: 1000
; takes 11018 events
places 2
class opt:0
int 0
int 1
func 4 1 int opt:0
  INTK 1 0
  INTK 2 1
  LOOP 0 2000
again:
  IFOBJ 3 0 @end
  ADD 1 1 2
  GET 0 3 0
  ENDL 0 @again
end:
  RET 1
end
; main
func 3 1 none
  NULL 0 0
  LOOP 0 1000
again:
  NEW 1 0 0
  MOVE 0 1
  ENDL 0 @again
  PLACEK 1 1
  AT 2 0 1 0
  PRINT 2
  RET 0
end
entry 1
