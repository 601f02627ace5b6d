; The second field would be register 64, which no function has.
;
; $ x10p verify new_past_register_63.x10
; status 1: verify: Index 0 0
places 1
class int int
func 64 0 none
NEW 0 63 0
RET 0
end
func 1 0 none
RET 0
end
entry 1
