; A constant that is named by its value.
;
; $ x10p check constant_by_its_value.asm
; Index, function 0, instruction 0: INTK 0 7
; line 13: INTK 0 7
; 7 is the number of a constant; constants are 0 to 1.
; The int 7 is constant 1: INTK 0 1
; status 1: verify: Index 0 0
places 1
int 3
int 7
func 1 0 none
INTK 0 7
PRINT 0
RET 0
end
entry 0
