; A register that nothing has set.
;
; $ x10p verify --explain register_not_set.x10
; status 1: verify: Unset 0 0
; > Unset, function 0, instruction 0: PRINT 0
; > PRINT asks that r0 is int or text; r0 isn't set.
; > Nothing on the way here writes r0, and this function has no parameters.
; > Set r0 before it is read.
places 1
int 7
func 1 0 none
PRINT 0
RET 0
end
entry 0
