; 100,000 finishes one after the other, each around one activity: 600,204 steps, of which 400,204 are main's. At each
; FINE main looks twice in vain before it goes on.
places 1
int 1
; an activity
func 1 0 none
INTK 0 0
RET 0
end
; main
func 1 2 none
LOOP 0 100
outer:
LOOP 1 1000
inner:
FINB
ASYNC 0 0
FINE
ENDL 1 @inner
ENDL 0 @outer
INTK 0 0
PRINT 0
RET 0
end
entry 1
