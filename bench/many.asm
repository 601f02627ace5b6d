; 1,000 activities that live at the same time, at one place and in one finish, of 10,000 steps each: 10,000,000 steps of
; theirs and 2,006 of main. Main waits at its FINE meanwhile, and looks once in each round.
places 1
int 0
int 1
; an activity: 10,000 steps
func 2 1 none
INTK 0 0
INTK 1 1
LOOP 0 4998
turn:
ADD 0 0 1
ENDL 0 @turn
RET 0
end
; main
func 1 1 none
FINB
LOOP 0 1000
start:
ASYNC 0 0
ENDL 0 @start
FINE
INTK 0 1
PRINT 0
RET 0
end
entry 1
