; An atomic region has to be closed before the function ends.
;
; $ x10p bounds not_closed.x10
; status 1: verify: Structure Nesting 0 1
; $ x10p verify not_closed.x10
; status 1: verify: Structure Nesting 0 1
version 2
places 1
func 1 0 none
ATOMB
RET 0
end
entry 0
