; A loop that no ENDL closes. The fault is at the last instruction.
;
; $ x10p bounds open_loop.x10
; status 1: verify: Structure Nesting 0 1
; $ x10p verify open_loop.x10
; status 1: verify: Structure Nesting 0 1
places 1
int 0
func 1 3 none
LOOP 0 2
RET 0
end
entry 0
