; Register 1 isn't set.
;
; $ x10p verify print_of_unset.x10
; status 1: verify: Unset 1 1
places 1
class
int 7
func 1 0 none
RET 0
end
func 2 0 none int
PRINT 0
PRINT 1
RET 0
end
entry 0
