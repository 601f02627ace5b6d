; At null IFOBJ goes to its label and sets no register.
;
; $ x10p verify ifobj_sets_nothing_at_null.x10
; status 1: verify: Unset 0 1
places 1
class int
func 3 0 none opt:0
IFOBJ 1 0 1
GET 2 1 0
RET 0
end
func 1 0 none
RET 0
end
entry 1
