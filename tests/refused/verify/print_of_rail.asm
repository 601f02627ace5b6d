; PRINT asks for an Int or a Text.
;
; $ x10p verify print_of_rail.x10
; status 1: verify: Kind 1 0
places 1
class
int 7
func 1 0 none
RET 0
end
func 2 0 none rail
PRINT 0
RET 0
end
entry 0
