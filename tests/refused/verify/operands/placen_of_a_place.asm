; PLACEN asks for an Int, the number of a place, and a place is none.
;
; $ x10p verify placen_of_a_place.x10
; status 1: verify: Kind 0 0
places 1
func 1 0 none place
PLACEN 0 0 1
RET 0
end
func 1 0 none
RET 0
end
entry 1
