; A FINE that closes no finish. In function 0 it does.
;
; $ x10p bounds fine_without_finb.x10
; status 1: verify: Structure Nesting 1 2
; $ x10p verify fine_without_finb.x10
; status 1: verify: Structure Nesting 1 2
places 1
func 1 0 none
FINB
FINE
RET 0
end
func 1 0 none
FINB
FINE
FINE
RET 0
end
entry 0
