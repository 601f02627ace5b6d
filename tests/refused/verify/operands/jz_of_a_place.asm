; JZ asks for an Int, and a place is none.
;
; $ x10p verify jz_of_a_place.x10
; status 1: verify: Kind 0 0
places 1
func 1 0 none place
JZ 0 1
RET 0
end
func 1 0 none
RET 0
end
entry 1
