; One way leaves a reference of this place in the register, the other writes this place there. Both are known to be
; here, but where they meet the register has no kind.
;
; $ x10p verify place_or_reference.x10
; status 1: verify: Unset 0 2
places 1
class
func 3 0 none int here:0
JZ 0 2
HERE 1
GOPEN 2 1
RET 0
end
func 1 0 none
RET 0
end
entry 1
