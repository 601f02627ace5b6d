; The second field is an object, and register 1 holds a number.
;
; $ x10p verify put_of_a_number_for_an_object.x10
; status 1: verify: Kind 0 0
places 1
class int obj:1
class
func 2 0 none obj:0 int
PUT 0 1 1
RET 0
end
func 1 0 none
RET 0
end
entry 1
