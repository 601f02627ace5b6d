; The parameter is an object, and null is none. Function 1 hands an object where null may be, which is allowed.
;
; $ x10p verify async_with_what_may_be_null.x10
; status 1: verify: Kind 2 1
places 1
class
func 1 0 none opt:0
RET 0
end
func 1 0 none obj:0
ASYNC 0 0
ASYNC 0 1
RET 0
end
func 1 0 none opt:0
ASYNC 0 0
ASYNC 0 1
RET 0
end
func 1 0 none
RET 0
end
entry 3
