; There are two functions: ASYNC of function 1 in function 0, and of function 2 in function 1.
;
; $ x10p verify async_of_no_function.x10
; status 1: verify: Index 1 0
places 1
func 1 0 none
ASYNC 0 1
RET 0
end
func 1 0 none
ASYNC 0 2
RET 0
end
entry 0
