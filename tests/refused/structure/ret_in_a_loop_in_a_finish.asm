; No function returns inside a loop that stands in a finish. In function 0 the finish stands in the loop, and is closed
; before the RET.
;
; $ x10p bounds ret_in_a_loop_in_a_finish.x10
; status 1: verify: Structure Nesting 1 2
; $ x10p verify ret_in_a_loop_in_a_finish.x10
; status 1: verify: Structure Nesting 1 2
places 1
func 1 1 none
LOOP 0 2
FINB
FINE
RET 0
ENDL 0 1
RET 0
end
func 1 1 none
FINB
LOOP 0 2
RET 0
ENDL 0 2
FINE
RET 0
end
entry 0
