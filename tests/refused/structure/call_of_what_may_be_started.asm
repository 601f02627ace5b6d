; A function may start itself, as function 0 does, and may not call itself.
;
; $ x10p bounds call_of_what_may_be_started.x10
; status 1: verify: Structure CallOrder 1 0
; $ x10p verify call_of_what_may_be_started.x10
; status 1: verify: Structure CallOrder 1 0
places 1
func 1 0 none
ASYNC 0 0
RET 0
end
func 1 0 none
CALL 0 0 1
RET 0
end
entry 0
