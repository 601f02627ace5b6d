; RSET asks for a Rail, and a number is none.
;
; $ x10p verify rset_of_a_number.x10
; status 1: verify: Kind 0 0
places 1
func 1 0 none int
RSET 0 0 0 1
RET 0
end
func 1 0 none
RET 0
end
entry 1
