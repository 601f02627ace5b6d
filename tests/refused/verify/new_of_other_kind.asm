; The second field is a text, and register 1 a number.
;
; $ x10p verify new_of_other_kind.x10
; status 1: verify: Kind 0 0
places 1
class int text
func 3 0 none int int
NEW 2 0 0
RET 0
end
func 1 0 none
RET 0
end
entry 1
