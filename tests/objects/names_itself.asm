; An object whose field is the object itself: however often one follows it one is at the same object.
;
; $ x10p bounds names_itself.x10
; 0 41
; $ x10p run names_itself.x10
; 0: 7
; takes 41 events
places 1
class opt:0 int
int 1
int 7
func 4 1 none
  NULL 0 0
  INTK 1 0
  NEW 2 0 0
  PUT 2 2 0
  MOVE 3 2
  LOOP 0 10
follow:
  GET 0 3 0
  IFOBJ 3 0 @end
  ENDL 0 @follow
  INTK 1 1
  PUT 3 1 1
  GET 1 2 1
  PRINT 1
end:
  RET 0
end
entry 0
