; PRINT asks for an Int or a Text. A place's number is given by PLACEI.
;
; $ x10p verify print_of_a_place.x10
; status 1: verify: Kind 0 0
places 1
func 1 0 none place
PRINT 0
RET 0
end
func 1 0 none
RET 0
end
entry 1
