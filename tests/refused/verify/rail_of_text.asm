; The length of a rail is an Int.
;
; $ x10p verify rail_of_text.x10
; status 1: verify: Kind 0 0
places 1
int 7
func 2 0 none text
RAIL 1 0 1
RET 0
end
func 1 0 none
RET 0
end
entry 1
