; Register 1 isn't set.
;
; $ x10p verify result_unset.x10
; status 1: verify: Unset 1 0
places 1
class
int 7
func 1 0 none
RET 0
end
func 2 0 int int
RET 1
end
entry 0
