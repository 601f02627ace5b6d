; An atomic region inside another.
;
; $ x10p check region_in_a_region.asm
; Atomic, function 0, instruction 1: ATOMB
; line 13: ATOMB
; ATOMB stands in the atomic region that begins in line 12: ATOMB
; One is enough, since nothing else moves here until its ATOME: leave this one out, or close the first before it.
; status 1: verify: Structure Atomic 0 1
version 2
places 1
func 1 0 none
ATOMB
ATOMB
ATOME
ATOME
RET 0
end
entry 0
