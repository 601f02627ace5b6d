; An ENDL that closes no loop.
;
; $ x10p bounds close_without_open.x10
; status 1: verify: Structure Nesting 0 1
; $ x10p verify close_without_open.x10
; status 1: verify: Structure Nesting 0 1
places 1
int 0
func 1 3 none
INTK 0 0
ENDL 0 0
RET 0
end
entry 0
