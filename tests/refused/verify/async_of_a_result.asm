; An activity gives nothing back, so ASYNC names a function without result, as in function 2, and none with one. CALL
; may name both.
;
; $ x10p verify async_of_a_result.x10
; status 1: verify: Result 3 0
places 1
func 1 0 none int
RET 0
end
func 1 0 int int
RET 0
end
func 1 0 none int
CALL 0 0 0
CALL 0 0 1
ASYNC 0 0
RET 0
end
func 1 0 none int
ASYNC 0 1
RET 0
end
func 1 0 none
RET 0
end
entry 4
