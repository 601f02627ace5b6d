; IFOBJ tells of the register that it sets: the other may still be null.
;
; $ x10p verify ifobj_leaves_its_operand.x10
; status 1: verify: Kind 0 1
places 1
class int
func 3 0 none opt:0
IFOBJ 1 0 2
GET 2 0 0
RET 0
end
func 1 0 none
RET 0
end
entry 1
