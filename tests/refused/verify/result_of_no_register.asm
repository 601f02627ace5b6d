; Where a function has no result, the a of its RET is 0; an a that names no register is no other
; fault.
;
; $ x10p verify result_of_no_register.x10
; status 1: verify: Result 1 1
places 1
class
int 7
func 1 0 none
RET 0
end
func 2 0 none int
INTK 1 0
RET 9
end
entry 0
