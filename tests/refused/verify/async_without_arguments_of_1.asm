; Where a function has no parameter, the b of ASYNC is 0, though register 1 is there.
;
; $ x10p verify async_without_arguments_of_1.x10
; status 1: verify: Index 2 0
places 1
func 2 0 none
RET 0
end
func 2 0 none int int
ASYNC 0 0
RET 0
end
func 2 0 none int int
ASYNC 1 0
RET 0
end
func 1 0 none
RET 0
end
entry 3
