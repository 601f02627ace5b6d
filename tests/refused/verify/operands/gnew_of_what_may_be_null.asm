; GNEW asks for an object, and null is none.
;
; $ x10p verify gnew_of_what_may_be_null.x10
; status 1: verify: Kind 0 0
places 1
class
func 2 0 none opt:0
GNEW 1 0
RET 0
end
func 1 0 none
RET 0
end
entry 1
