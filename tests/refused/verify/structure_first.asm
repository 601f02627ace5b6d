; There is no int 1, and the last instruction isn't RET: Structure comes before Index.
;
; $ x10p verify structure_first.x10
; status 1: verify: Structure Nesting 1 1
places 1
class
int 7
func 1 0 none
RET 0
end
func 2 0 none int
INTK 1 1
PRINT 0
end
entry 0
