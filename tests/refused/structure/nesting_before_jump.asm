; A jump into a finish that is never closed: Nesting comes before Jump, though it is found later.
;
; $ x10p bounds nesting_before_jump.x10
; status 1: verify: Structure Nesting 0 2
; $ x10p verify nesting_before_jump.x10
; status 1: verify: Structure Nesting 0 2
places 1
func 1 0 none
JMP 2
FINB
RET 0
RET 0
end
entry 0
