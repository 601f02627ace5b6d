; Register 1 isn't set where it is printed, and there is no register 2: Index comes before Unset.
;
; $ x10p verify index_first.x10
; status 1: verify: Index 1 1
places 1
class
int 7
func 1 0 none
RET 0
end
func 2 0 none int
PRINT 1
INTK 2 0
RET 0
end
entry 0
