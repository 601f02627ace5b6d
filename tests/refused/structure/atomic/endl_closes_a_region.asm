; A loop that is begun outside an atomic region isn't ended inside.
;
; $ x10p bounds endl_closes_a_region.x10
; status 1: verify: Structure Nesting 0 2
; $ x10p verify endl_closes_a_region.x10
; status 1: verify: Structure Nesting 0 2
version 2
places 1
func 1 1 none
LOOP 0 2
ATOMB
ENDL 0 1
ATOME
RET 0
end
entry 0
