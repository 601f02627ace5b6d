; An ATOME without its ATOMB.
;
; $ x10p check no_region_open.asm
; Nesting, function 0, instruction 0: ATOME
; line 11: ATOME
; No atomic region is open here, so ATOME closes none.
; status 1: verify: Structure Nesting 0 0
version 2
places 1
func 1 0 none
ATOME
RET 0
end
entry 0
