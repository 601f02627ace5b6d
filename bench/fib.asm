; The Fibonacci number of 20 by activities: 21,891 of them, each of which starts two and waits for them at a FINE. Many
; wait at the same time, and each looks once in each round whether it may go on.
places 1
class int
int 1
int 2
int 20
; puts a Fibonacci number into an object
func 6 0 none int obj:0
INTK 2 1
LT 3 0 2
JZ 3 @more
PUT 1 0 0
RET 0
more:
NEW 3 0 0
NEW 5 0 0
INTK 4 0
SUB 2 0 4
SUB 4 2 4
FINB
ASYNC 2 0
ASYNC 4 0
FINE
GET 2 3 0
GET 4 5 0
ADD 2 2 4
PUT 1 2 0
RET 0
end
; main
func 2 0 none
INTK 0 2
NEW 1 0 0
FINB
ASYNC 0 0
FINE
GET 0 1 0
PRINT 0
RET 0
end
entry 1
