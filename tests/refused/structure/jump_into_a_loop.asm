; No jump goes into a loop.
;
; $ x10p bounds jump_into_a_loop.x10
; status 1: verify: Structure Jump 0 0
; $ x10p verify jump_into_a_loop.x10
; status 1: verify: Structure Jump 0 0
places 1
int 0
func 1 3 none
JMP 2
LOOP 0 2
ENDL 0 2
RET 0
end
entry 0
