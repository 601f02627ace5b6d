; Exercise 12: the client asks for the home of the counter, and goes there. It does so at any number of places.
;
; $ x10p run 12_client.x10
; 0: 2
; 1: 2
; $ x10p run 12_client.x10 --places 3
; 0: 2
; 1: 2
places 2
class int
int 1
; adds 1 to the counter, and gives the sum
func 3 0 int here:0
  GOPEN 0 0
  GET 1 0 0
  INTK 2 0
  ADD 1 1 2
  PUT 0 1 0
  RET 1
end
; the client
func 2 0 none gref:0
  HOME 1 0
  AT 1 0 1 0
  PRINT 1
  RET 0
end
; main
func 3 0 none
  INTK 0 0
  NEW 1 0 0
  GNEW 0 1
  PLACEK 2 1
  AT 0 0 2 1
  GET 0 1 0
  PRINT 0
  RET 0
end
entry 2
