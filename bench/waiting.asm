; One activity works in a finish, and main waits for it: 10,002,010 steps, of which 10,002,004 are the activity's. In rounds main
; looks once after each of them whether it may go on.
places 1
int 0
int 1
; the activity: two loops, 10 million turns of ADD and ENDL
func 2 2 none
INTK 0 0
INTK 1 1
LOOP 0 1000
outer:
LOOP 1 5000
inner:
ADD 0 0 1
ENDL 1 @inner
ENDL 0 @outer
RET 0
end
; main
func 1 0 none
FINB
ASYNC 0 0
FINE
INTK 0 1
PRINT 0
RET 0
end
entry 1
