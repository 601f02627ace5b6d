; The class has one field, number 0.
;
; $ x10p verify put_of_no_such_field.x10
; status 1: verify: Kind 0 0
places 1
class int
func 2 0 none obj:0 int
PUT 0 1 1
RET 0
end
func 1 0 none
RET 0
end
entry 1
