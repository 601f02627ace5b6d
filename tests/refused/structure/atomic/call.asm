; No function is called inside an atomic region. Outside of it one may be, and that one has a region of its own.
;
; $ x10p bounds call.x10
; status 1: verify: Structure Atomic 1 1
; $ x10p verify call.x10
; status 1: verify: Structure Atomic 1 1
version 2
places 1
func 1 0 none
ATOMB
ATOME
RET 0
end
func 1 0 none
ATOMB
CALL 0 0 0
ATOME
CALL 0 0 0
RET 0
end
entry 1
