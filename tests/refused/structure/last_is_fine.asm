; A finish that is closed, and no RET behind it.
;
; $ x10p bounds last_is_fine.x10
; status 1: verify: Structure Nesting 0 2
; $ x10p verify last_is_fine.x10
; status 1: verify: Structure Nesting 0 2
places 1
func 1 0 none
RET 0
FINB
FINE
end
entry 0
