; No activity is started inside an atomic region.
;
; $ x10p bounds async.x10
; status 1: verify: Structure Atomic 0 1
; $ x10p verify async.x10
; status 1: verify: Structure Atomic 0 1
version 2
places 1
func 1 0 none
ATOMB
ASYNC 0 0
ATOME
RET 0
end
entry 0
