; MOVE takes any kind, but register 1 isn't set.
;
; $ x10p verify move_of_unset.x10
; status 1: verify: Unset 0 0
places 1
func 2 0 none int
MOVE 0 1
RET 0
end
func 1 0 none
RET 0
end
entry 1
