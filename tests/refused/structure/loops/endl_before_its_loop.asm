; An ENDL goes to the instruction after its LOOP.
;
; $ x10p bounds endl_before_its_loop.x10
; status 1: verify: Structure Jump 0 1
; $ x10p verify endl_before_its_loop.x10
; status 1: verify: Structure Jump 0 1
places 1
int 0
func 1 3 none
LOOP 0 2
ENDL 0 0
RET 0
end
entry 0
