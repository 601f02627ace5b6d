; The function has two parameters, and the second register isn't set. In function 1 it is.
;
; $ x10p verify async_of_unset.x10
; status 1: verify: Unset 2 0
places 1
int 7
func 2 0 none int int
RET 0
end
func 2 0 none int
INTK 1 0
ASYNC 0 0
RET 0
end
func 2 0 none int
ASYNC 0 0
RET 0
end
func 1 0 none
RET 0
end
entry 3
