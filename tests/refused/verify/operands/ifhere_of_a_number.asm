; IFHERE asks for a Place or a GRef, and the number of a place is none.
;
; $ x10p verify ifhere_of_a_number.x10
; status 1: verify: Kind 0 0
places 1
func 1 0 none int
IFHERE 0 1
RET 0
end
func 1 0 none
RET 0
end
entry 1
