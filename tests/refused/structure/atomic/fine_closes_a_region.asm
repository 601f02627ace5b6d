; A finish that is opened outside an atomic region isn't closed inside.
;
; $ x10p bounds fine_closes_a_region.x10
; status 1: verify: Structure Nesting 0 2
; $ x10p verify fine_closes_a_region.x10
; status 1: verify: Structure Nesting 0 2
version 2
places 1
func 1 0 none
FINB
ATOMB
FINE
ATOME
RET 0
end
entry 0
