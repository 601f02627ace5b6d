; No function returns inside an atomic region, nor in a loop inside one.
;
; $ x10p bounds ret_in_a_loop_inside.x10
; status 1: verify: Structure Nesting 0 2
; $ x10p verify ret_in_a_loop_inside.x10
; status 1: verify: Structure Nesting 0 2
version 2
places 1
func 1 1 none
ATOMB
LOOP 0 2
RET 0
ENDL 0 2
ATOME
RET 0
end
entry 0
