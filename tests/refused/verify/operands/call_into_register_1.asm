; Function 0 gives nothing, so the a of its CALL is 0.
;
; $ x10p verify call_into_register_1.x10
; status 1: verify: Result 1 0
places 1
func 1 0 none
RET 0
end
func 2 0 none int int
CALL 1 0 0
RET 0
end
func 1 0 none
RET 0
end
entry 2
