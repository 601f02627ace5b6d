; The last instruction of a function is RET, and nothing is open there.
;
; $ x10p bounds last_is_atomb.x10
; status 1: verify: Structure Nesting 0 1
; $ x10p verify last_is_atomb.x10
; status 1: verify: Structure Nesting 0 1
version 2
places 1
func 1 0 none
HERE 0
ATOMB
end
entry 0
