; A finish that no FINE closes. The fault is at the last instruction, which stands inside it.
;
; $ x10p bounds finb_without_fine.x10
; status 1: verify: Structure Nesting 0 1
; $ x10p verify finb_without_fine.x10
; status 1: verify: Structure Nesting 0 1
places 1
func 1 0 none
FINB
RET 0
end
entry 0
