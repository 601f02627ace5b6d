; A label with its colon where it is used.
;
; $ x10p asm --explain label_with_its_colon.asm label_with_its_colon.x10
; status 1: asm: line 12 Label
; > label_with_its_colon.asm:12:5: Label: JMP @out:
; >                                           ^^^^^
; > A jump names the label without its colon: @out
places 1
int 7
func 1 0 none
INTK 0 0
JMP @out:
PRINT 0
out:
RET 0
end
entry 0
