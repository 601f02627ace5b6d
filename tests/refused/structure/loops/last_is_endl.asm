; A loop that is closed, and no RET behind it.
;
; $ x10p bounds last_is_endl.x10
; status 1: verify: Structure Nesting 0 1
; $ x10p verify last_is_endl.x10
; status 1: verify: Structure Nesting 0 1
places 1
func 1 1 none
LOOP 0 2
ENDL 0 1
end
entry 0
