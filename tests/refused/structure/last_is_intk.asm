; The last instruction of function 1 isn't RET, though it has one. Function 0 ends with its RET.
;
; $ x10p bounds last_is_intk.x10
; status 1: verify: Structure Nesting 1 1
; $ x10p verify last_is_intk.x10
; status 1: verify: Structure Nesting 1 1
places 1
int 1
func 1 0 none
RET 0
end
func 1 0 none
RET 0
INTK 0 0
end
entry 0
