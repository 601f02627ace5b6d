; Fibonacci's numbers by activities. ASYNC b x starts an activity here, of function x with the
; registers from b on, and goes on at once. It gives nothing back, so each activity is handed an
; object to put its number into. Objects are shared: who started the activity has the same one.
; FINB opens a finish, and FINE waits until all has ended that was started in between. Only then
; are both numbers there to be added; without the finish GET would find the 0 of a new object.
;
; Unlike CALL, ASYNC may name its own function. So there is recursion, and no number says before
; the run how many activities there will be: here 177. `x10p bounds` tells what each of them takes
; at most, 20 steps, and what main takes.
;
; $ x10p bounds fib.x10
; 0 20
; 1 9
; $ x10p run fib.x10
; 0: 55
; takes 4881 events
places 1
class int
int 0
int 1
int 2
int 10
; puts the number at a place in the row, register 0, into an object, register 1
func 6 0 none int obj:0
  INTK 2 2
  LT 3 0 2
  JZ 3 @sum
; the first two numbers are 0 and 1
  PUT 1 0 0
  RET 0
sum:
; what the two activities begin with: 2 and 3 for the one, 4 and 5 for the other
  INTK 2 0
  NEW 3 2 0
  NEW 5 2 0
  INTK 4 1
  SUB 2 0 4
  SUB 4 2 4
  FINB
  ASYNC 2 0
  ASYNC 4 0
  FINE
  GET 2 3 0
  GET 4 5 0
  ADD 2 2 4
  PUT 1 2 0
  RET 0
end
; main
func 3 0 none
  INTK 2 0
  NEW 1 2 0
  INTK 0 3
  FINB
  ASYNC 0 0
  FINE
  GET 2 1 0
  PRINT 2
  RET 0
end
entry 1
