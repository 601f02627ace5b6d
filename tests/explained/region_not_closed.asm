; An atomic region without its end.
;
; $ x10p check region_not_closed.asm
; Nesting, function 0, instruction 2: RET 0
; line 13: RET 0
; No ATOME closes the atomic region that begins in line 11: ATOMB
; status 1: verify: Structure Nesting 0 2
version 2
places 1
func 1 0 none
ATOMB
HERE 0
RET 0
end
entry 0
