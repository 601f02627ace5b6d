; An atomic region that is begun outside a loop isn't ended inside.
;
; $ x10p bounds atome_closes_a_loop.x10
; status 1: verify: Structure Nesting 0 2
; $ x10p verify atome_closes_a_loop.x10
; status 1: verify: Structure Nesting 0 2
version 2
places 1
func 1 1 none
ATOMB
LOOP 0 2
ATOME
ENDL 0 2
RET 0
end
entry 0
