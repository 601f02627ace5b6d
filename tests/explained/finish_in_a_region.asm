; A finish inside an atomic region.
;
; $ x10p check finish_in_a_region.asm
; Atomic, function 0, instruction 1: FINB
; line 13: FINB
; FINB stands in the atomic region that begins in line 12: ATOMB
; Nothing waits inside: close the region before the finish, or put it into the finish.
; status 1: verify: Structure Atomic 0 1
version 2
places 1
func 1 0 none
ATOMB
FINB
FINE
ATOME
RET 0
end
entry 0
