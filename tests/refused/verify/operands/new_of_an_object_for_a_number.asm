; The first field is a number, and register 0 holds an object.
;
; $ x10p verify new_of_an_object_for_a_number.x10
; status 1: verify: Kind 0 0
places 1
class int obj:1
class
func 2 0 none obj:0 obj:1
NEW 0 0 0
RET 0
end
func 1 0 none
RET 0
end
entry 1
