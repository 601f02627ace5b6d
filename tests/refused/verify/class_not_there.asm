; There is one class, number 0: NEW of another.
;
; $ x10p verify class_not_there.x10
; status 1: verify: Index 0 0
places 1
class
func 1 0 none
NEW 0 0 1
RET 0
end
func 1 0 none
RET 0
end
entry 1
