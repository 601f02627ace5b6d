; Three loops in one another around three instructions: 80,040,047 steps.
places 1
int 0
int 1
int 3
func 6 3 none
INTK 0 0
INTK 1 1
INTK 2 2
LOOP 0 20
outer:
LOOP 1 1000
middle:
LOOP 2 1000
inner:
ADD 0 0 1
MUL 3 0 2
SUB 4 3 0
ENDL 2 @inner
ENDL 1 @middle
ENDL 0 @outer
PRINT 0
PRINT 4
RET 0
end
entry 0
