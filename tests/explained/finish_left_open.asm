; A return inside a finish.
;
; $ x10p verify --explain finish_left_open.x10
; status 1: verify: Structure Nesting 0 1
; > Nesting, function 0, instruction 1: RET 0
; > RET stands in a finish: jump to the FINE, and return after it. The finish begins in instruction 0: FINB
places 1
func 1 0 none
FINB
RET 0
FINE
RET 0
end
entry 0
