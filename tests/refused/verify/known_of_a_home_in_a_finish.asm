; In both functions IFHERE goes to the FINE where the home isn't here. Function 0 opens the reference on the other way,
; inside the finish; function 1 does so after the FINE, where both ways have met and nothing is known of the home.
;
; $ x10p verify known_of_a_home_in_a_finish.x10
; status 1: verify: Home 1 3
places 1
class int
func 1 0 none gref:0
FINB
IFHERE 0 5
GOPEN 0 0
GET 0 0 0
PRINT 0
FINE
RET 0
end
func 1 0 none gref:0
FINB
IFHERE 0 2
FINE
GOPEN 0 0
RET 0
end
func 1 0 none
RET 0
end
entry 2
