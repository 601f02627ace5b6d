; PRINT asks for an Int or a Text.
;
; $ x10p verify print_of_object.x10
; status 1: verify: Kind 0 0
places 1
class int
func 1 0 none obj:0
PRINT 0
RET 0
end
func 1 0 none
RET 0
end
entry 1
