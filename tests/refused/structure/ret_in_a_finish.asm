; No function returns inside a finish. In function 0 one does inside a loop, which is allowed.
;
; $ x10p bounds ret_in_a_finish.x10
; status 1: verify: Structure Nesting 1 1
; $ x10p verify ret_in_a_finish.x10
; status 1: verify: Structure Nesting 1 1
places 1
func 1 1 none
LOOP 0 2
RET 0
ENDL 0 1
RET 0
end
func 1 0 none
FINB
RET 0
FINE
RET 0
end
entry 0
