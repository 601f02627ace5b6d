; A return inside an atomic region.
;
; $ x10p check return_in_a_region.asm
; Nesting, function 0, instruction 1: RET 0
; line 12: RET 0
; RET stands in an atomic region: jump to the ATOME, and return after it. The atomic region begins in line 11: ATOMB
; status 1: verify: Structure Nesting 0 1
version 2
places 1
func 1 0 none
ATOMB
RET 0
ATOME
RET 0
end
entry 0
