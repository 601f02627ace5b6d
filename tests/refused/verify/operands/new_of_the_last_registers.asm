; The fields would be the last two registers that there may be, 62 and 63, which aren't set.
;
; $ x10p verify new_of_the_last_registers.x10
; status 1: verify: Unset 0 0
places 1
class int int
func 64 0 none
NEW 0 62 0
RET 0
end
func 1 0 none
RET 0
end
entry 1
