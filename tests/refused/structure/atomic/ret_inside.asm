; No function returns inside an atomic region. In function 0 one does after it.
;
; $ x10p bounds ret_inside.x10
; status 1: verify: Structure Nesting 1 1
; $ x10p verify ret_inside.x10
; status 1: verify: Structure Nesting 1 1
version 2
places 1
func 1 0 none
ATOMB
ATOME
RET 0
end
func 1 0 none
ATOMB
RET 0
ATOME
RET 0
end
entry 0
