; There is no register 2 to give.
;
; $ x10p verify result_not_there.x10
; status 1: verify: Index 1 0
places 1
class
int 7
func 1 0 none
RET 0
end
func 2 0 int int
RET 2
end
entry 0
