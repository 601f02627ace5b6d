; The class has two fields, and there is only one register from 1 on.
;
; $ x10p verify new_past_the_registers.x10
; status 1: verify: Index 0 0
places 1
class int int
func 2 0 none int int
NEW 0 1 0
RET 0
end
func 1 0 none
RET 0
end
entry 1
