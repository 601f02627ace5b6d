; Register 1, the other place, isn't set.
;
; $ x10p verify ifsame_with_unset.x10
; status 1: verify: Unset 0 0
places 1
func 2 0 none place
IFSAME 0 1 1
RET 0
end
func 1 0 none
RET 0
end
entry 1
