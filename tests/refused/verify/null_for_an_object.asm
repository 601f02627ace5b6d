; Where an object is promised, what may be null isn't enough.
;
; $ x10p verify null_for_an_object.x10
; status 1: verify: Kind 1 0
places 1
class
int 7
func 1 0 none
RET 0
end
func 2 0 obj:0 opt:0
RET 0
end
entry 0
