; The field is an object of class 0, and register 0 holds one of class 1, with the same fields.
;
; $ x10p verify new_of_other_class.x10
; status 1: verify: Kind 0 0
places 1
class
class
class opt:0
func 2 0 none obj:1
NEW 1 0 2
RET 0
end
func 1 0 none
RET 0
end
entry 1
