; The greater and the lesser of two numbers, by jumps; then that a number is equal to itself.
;
; canonical
;
; $ x10p bounds two_ways.x10
; 0 12
; $ x10p run two_ways.x10
; 0: 9
; 0: 4
; 0: 1
; takes 10 events
places 1
int 4
int 9
func 3 0 none
INTK 0 0
INTK 1 1
LT 2 0 1
JZ 2 7
PRINT 1
PRINT 0
JMP 9
PRINT 0
PRINT 1
EQ 2 0 0
PRINT 2
RET 0
end
entry 0
