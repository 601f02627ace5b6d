; HOME asks for a reference, and an object is none.
;
; $ x10p verify home_of_an_object.x10
; status 1: verify: Kind 0 0
places 1
class
func 2 0 none obj:0
HOME 1 0
RET 0
end
func 1 0 none
RET 0
end
entry 1
