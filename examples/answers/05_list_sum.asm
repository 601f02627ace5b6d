; Exercise 5: the sum of a list. The list is made from its end: each object gets the list so far as its next one.
;
; $ x10p run 05_list_sum.x10
; 0: 15
places 1
class int opt:0
int 0
int 1
; the sum of a list of at most 100 objects
func 4 1 int opt:0
  INTK 1 0
  LOOP 0 100
next:
  IFOBJ 2 0 @end
  GET 3 2 0
  ADD 1 1 3
  GET 0 2 1
  ENDL 0 @next
end:
  RET 1
end
; main
func 3 1 none
  INTK 0 0
  NULL 1 0
  INTK 2 1
  LOOP 0 5
make:
  ADD 0 0 2
  NEW 1 0 0
  ENDL 0 @make
  CALL 0 1 0
  PRINT 0
  RET 0
end
entry 1
