; On one way the register is set, on the other it isn't: where they meet it isn't, for ASYNC too.
;
; $ x10p verify async_of_unset_on_one_way.x10
; status 1: verify: Unset 1 2
places 1
int 7
func 1 0 none int
RET 0
end
func 2 0 none int
JZ 0 2
INTK 1 0
ASYNC 1 0
RET 0
end
func 1 0 none
RET 0
end
entry 2
