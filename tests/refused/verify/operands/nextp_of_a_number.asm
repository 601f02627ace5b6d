; NEXTP asks for a Place, and the number of a place is none.
;
; $ x10p verify nextp_of_a_number.x10
; status 1: verify: Kind 0 0
places 1
func 1 0 none int
NEXTP 0 0
RET 0
end
func 1 0 none
RET 0
end
entry 1
