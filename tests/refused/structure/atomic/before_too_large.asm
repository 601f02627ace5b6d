; Atomic is looked for before TooLarge.
;
; $ x10p bounds before_too_large.x10
; status 1: verify: Structure Atomic 0 9
; $ x10p verify before_too_large.x10
; status 1: verify: Structure Atomic 0 9
version 2
places 1
func 1 4 none
LOOP 0 65535
LOOP 1 65535
LOOP 2 65535
LOOP 3 65535
ENDL 3 4
ENDL 2 3
ENDL 1 2
ENDL 0 1
ATOMB
FINB
FINE
ATOME
RET 0
end
entry 0
