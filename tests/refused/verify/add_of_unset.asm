; Register 1 isn't set before the ADD.
;
; $ x10p verify add_of_unset.x10
; status 1: verify: Unset 1 0
places 1
class
int 7
func 1 0 none
RET 0
end
func 2 0 none int
ADD 1 0 1
RET 0
end
entry 0
