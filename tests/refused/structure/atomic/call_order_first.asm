; CallOrder is looked for before Atomic: a CALL that has both faults, and an earlier one of Atomic alone.
;
; $ x10p bounds call_order_first.x10
; status 1: verify: Structure CallOrder 0 2
; $ x10p verify call_order_first.x10
; status 1: verify: Structure CallOrder 0 2
version 2
places 1
func 1 0 none
ATOMB
ASYNC 0 0
CALL 0 0 0
ATOME
RET 0
end
entry 0
