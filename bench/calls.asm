; 10,000,000 calls of a function of two parameters: 40,020,025 steps.
places 1
int 0
int 1
func 3 0 int int int
ADD 2 0 1
RET 2
end
func 4 3 none
INTK 0 0
INTK 1 1
LOOP 0 10
outer:
LOOP 1 1000
middle:
LOOP 2 1000
inner:
CALL 0 0 0
ENDL 2 @inner
ENDL 1 @middle
ENDL 0 @outer
PRINT 0
RET 0
end
entry 1
