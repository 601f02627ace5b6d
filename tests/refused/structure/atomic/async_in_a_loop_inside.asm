; No activity is started inside an atomic region, nor in a loop inside one.
;
; $ x10p bounds async_in_a_loop_inside.x10
; status 1: verify: Structure Atomic 0 2
; $ x10p verify async_in_a_loop_inside.x10
; status 1: verify: Structure Atomic 0 2
version 2
places 1
func 1 1 none
ATOMB
LOOP 0 2
ASYNC 0 0
ENDL 0 2
ATOME
RET 0
end
entry 0
