; There is one int, number 0.
;
; $ x10p verify int_not_there.x10
; status 1: verify: Index 1 0
places 1
class
int 7
func 1 0 none
RET 0
end
func 2 0 none int
INTK 1 1
RET 0
end
entry 0
