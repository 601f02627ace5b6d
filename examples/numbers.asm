; Numbers have 64 bits. Sums, differences and products that don't fit wrap: the greatest number
; and one is the least number.
;
; $ x10p run numbers.x10
; 0: 42
; 0: 1
; 0: -9223372036854775808
places 1
int 6
int 7
int 9223372036854775807
int 1
func 3 0 none
INTK 0 0
INTK 1 1
MUL 2 0 1
PRINT 2
SUB 2 1 0
PRINT 2
INTK 0 2
INTK 1 3
ADD 2 0 1
PRINT 2
RET 0
end
entry 0
