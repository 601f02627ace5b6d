; IFOBJ asks for what may be null, and a reference never is.
;
; $ x10p verify ifobj_of_a_reference.x10
; status 1: verify: Kind 0 0
places 1
class
func 2 0 none gref:0
IFOBJ 1 0 1
RET 0
end
func 1 0 none
RET 0
end
entry 1
