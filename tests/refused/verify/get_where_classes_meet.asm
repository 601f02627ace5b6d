; On one way the register has an object of class 0, on the other one of class 1: nothing is known of it.
;
; $ x10p verify get_where_classes_meet.x10
; status 1: verify: Unset 0 2
places 1
class int
class int
func 2 0 none int obj:1
JZ 0 2
NEW 1 0 0
GET 0 1 0
RET 0
end
func 1 0 none
RET 0
end
entry 1
