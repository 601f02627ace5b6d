; Where the class has no fields, b of NEW is 0.
;
; $ x10p verify new_without_fields_of_1.x10
; status 1: verify: Index 0 0
places 1
class
func 2 0 none int int
NEW 0 1 0
RET 0
end
func 1 0 none
RET 0
end
entry 1
