; AT goes to a Place, and register 0 holds a number.
;
; $ x10p verify at_at_a_number.x10
; status 1: verify: Kind 1 0
places 1
func 1 0 int int
RET 0
end
func 2 0 none int
AT 1 0 0 0
RET 0
end
func 1 0 none
RET 0
end
entry 2
