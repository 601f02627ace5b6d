; The field is an object, and null is none.
;
; $ x10p verify put_of_null_for_an_object.x10
; status 1: verify: Kind 0 1
places 1
class obj:0
func 2 0 none obj:0
NULL 1 0
PUT 0 1 0
RET 0
end
func 1 0 none
RET 0
end
entry 1
