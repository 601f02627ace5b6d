; Ten activities at each of three places count up one object of their place, 20 times each. Main reads it there when all
; have ended, by AT, and each place prints its own.
;
; $ x10p run many_at_each_place.x10
; 0: 200
; 1: 200
; 2: 200
; $ x10p run many_at_each_place.x10 --threads
; 0: 200
; 1: 200
; 2: 200
; 5 times
; $ x10p run many_at_each_place.x10 --places 5 --threads
; 0: 200
; 1: 200
; 2: 200
version 2
places 3
class int
int 0
int 1
; counts up
func 3 1 none obj:0
  INTK 2 1
  LOOP 0 20
again:
  ATOMB
  GET 1 0 0
  ADD 1 1 2
  PUT 0 1 0
  ATOME
  ENDL 0 @again
  RET 0
end
; at a place: an object, and ten activities that count it up
func 2 1 none
  INTK 0 0
  NEW 1 0 0
  FINB
  LOOP 0 10
again:
  ASYNC 1 0
  ENDL 0 @again
  FINE
  GET 0 1 0
  PRINT 0
  RET 0
end
func 1 1 none
  HERE 0
  FINB
  LOOP 0 3
again:
  ATA 0 0 1
  NEXTP 0 0
  ENDL 0 @again
  FINE
  RET 0
end
entry 2
