; The parameter is an object, and null is none.
;
; $ x10p verify call_with_what_may_be_null.x10
; status 1: verify: Kind 1 1
places 1
class
func 1 0 none obj:0
RET 0
end
func 1 0 none
NULL 0 0
CALL 0 0 0
RET 0
end
entry 1
