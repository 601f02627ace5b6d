; Register 1 isn't set before the SUB.
;
; $ x10p verify sub_of_unset.x10
; status 1: verify: Unset 1 0
places 1
class
int 7
func 1 0 none
RET 0
end
func 2 0 none int
SUB 1 0 1
RET 0
end
entry 0
