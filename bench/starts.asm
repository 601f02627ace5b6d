; 100,000 activities in one finish, started in two loops: 400,206 steps, of which 200,206 are main's. Each activity ends
; while the next ones are started, so that no more than two live beside main.
places 1
int 1
; an activity
func 1 0 none
INTK 0 0
RET 0
end
; main
func 1 2 none
FINB
LOOP 0 100
outer:
LOOP 1 1000
inner:
ASYNC 0 0
ENDL 1 @inner
ENDL 0 @outer
FINE
INTK 0 0
PRINT 0
RET 0
end
entry 1
