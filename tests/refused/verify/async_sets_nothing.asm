; ASYNC sets no register: after it those are set that were before, as register 0 is, and register 1 isn't. CALL sets
; one.
;
; $ x10p verify async_sets_nothing.x10
; status 1: verify: Unset 3 2
places 1
func 1 0 none int
RET 0
end
func 1 0 int int
RET 0
end
func 2 0 none int
CALL 1 0 1
ASYNC 0 0
PRINT 0
PRINT 1
RET 0
end
func 2 0 none int
ASYNC 0 0
PRINT 0
PRINT 1
RET 0
end
func 1 0 none
RET 0
end
entry 4
