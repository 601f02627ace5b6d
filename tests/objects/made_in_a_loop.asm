; 1,000 objects in a chain, each its own: the numbers that they hold are 1 to 1,000, and their sum is
; 500,500.
;
; $ x10p bounds made_in_a_loop.x10
; 0 8008
; $ x10p run made_in_a_loop.x10
; 0: 500500
; takes 8008 events
places 1
class int opt:0
int 0
int 1
func 5 1 none
  INTK 3 1
; the chain; the last object is the first in it
  INTK 0 0
  NULL 1 0
  LOOP 0 1000
make:
  ADD 0 0 3
  NEW 1 0 0
  ENDL 0 @make
; the sum
  INTK 0 0
  LOOP 0 1000
sum:
  IFOBJ 2 1 @done
  GET 4 2 0
  ADD 0 0 4
  GET 1 2 1
  ENDL 0 @sum
done:
  PRINT 0
  RET 0
end
entry 0
