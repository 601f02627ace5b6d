; A finish that is open at the end of its function, behind the RET.
;
; $ x10p bounds last_is_finb.x10
; status 1: verify: Structure Nesting 0 1
; $ x10p verify last_is_finb.x10
; status 1: verify: Structure Nesting 0 1
places 1
func 1 0 none
RET 0
FINB
end
entry 0
