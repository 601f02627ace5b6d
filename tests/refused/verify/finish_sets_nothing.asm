; FINB and FINE set no register: what an activity in the finish has done isn't known after it.
;
; $ x10p verify finish_sets_nothing.x10
; status 1: verify: Unset 1 3
places 1
int 7
func 1 0 none
INTK 0 0
RET 0
end
func 1 0 none
FINB
ASYNC 0 0
FINE
PRINT 0
RET 0
end
func 1 0 none
RET 0
end
entry 2
