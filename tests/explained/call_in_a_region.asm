; A call inside an atomic region.
;
; $ x10p check call_in_a_region.asm
; Atomic, function 1, instruction 1: CALL 0 0 0
; line 18: CALL 0 0 0
; CALL stands in the atomic region that begins in line 17: ATOMB
; Nothing is called inside: put what the function does here, or call it before the ATOMB or after the ATOME.
; status 1: verify: Structure Atomic 1 1
version 2
places 1
func 1 0 int
HERE 0
PLACEI 0 0
RET 0
end
func 1 0 none
ATOMB
CALL 0 0 0
ATOME
RET 0
end
entry 1
