; An ASYNC in a loop inside an atomic region.
;
; $ x10p check async_in_a_region.asm
; Atomic, function 0, instruction 2: ASYNC 0 0
; line 15: ASYNC 0 0
; ASYNC stands in the atomic region that begins in line 12: ATOMB
; Nothing is started inside: start it before the ATOMB or after the ATOME.
; status 1: verify: Structure Atomic 0 2
version 2
places 1
func 1 1 none
ATOMB
LOOP 0 3
turn:
ASYNC 0 0
ENDL 0 @turn
ATOME
RET 0
end
entry 0
