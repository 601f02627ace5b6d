; An AT inside an atomic region.
;
; $ x10p check away_in_a_region.asm
; Atomic, function 1, instruction 2: AT 0 0 0 0
; line 17: AT 0 0 0 0
; AT stands in the atomic region that begins in line 15: ATOMB
; Nothing goes elsewhere inside: go before the ATOMB or after the ATOME. The function that runs there has an atomic region of its own.
; status 1: verify: Structure Atomic 1 2
version 2
places 1
func 1 0 none
RET 0
end
func 1 0 none
ATOMB
HERE 0
AT 0 0 0 0
ATOME
RET 0
end
entry 1
