; A constant that is not there.
;
; $ x10p verify --explain constant_not_there.x10
; status 1: verify: Index 0 0
; > Index, function 0, instruction 0: INTK 0 1
; > 1 is the number of a constant; the only constant is 0.
places 1
int 7
func 1 0 none
INTK 0 1
PRINT 0
RET 0
end
entry 0
