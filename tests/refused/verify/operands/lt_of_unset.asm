; Register 1 isn't set before the LT that sets it.
;
; $ x10p verify lt_of_unset.x10
; status 1: verify: Unset 0 0
places 1
func 2 0 none int
LT 1 1 0
RET 0
end
func 1 0 none
RET 0
end
entry 1
