; The second field would be register 1, which is not set.
;
; $ x10p verify new_of_unset.x10
; status 1: verify: Unset 0 0
places 1
class int text
func 3 0 none int
NEW 2 0 0
RET 0
end
func 1 0 none
RET 0
end
entry 1
