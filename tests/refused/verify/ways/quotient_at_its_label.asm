; DIV sets its register on the way to the next instruction, which may print it. It goes to its label without a
; quotient, and there the two ways meet.
;
; $ x10p verify quotient_at_its_label.x10
; status 1: verify: Unset 0 2
places 1
func 2 0 none int
DIV 1 0 0 2
PRINT 1
PRINT 1
RET 0
end
func 1 0 none
RET 0
end
entry 1
