; A jump to a label that is not there.
;
; $ x10p asm --explain label_not_there.asm label_not_there.x10
; status 1: asm: line 12 Label
; > label_not_there.asm:12:5: Label: JMP @over
; >                                      ^^^^^
; > Function 0 has no label `over`.
places 1
int 7
func 1 0 none
INTK 0 0
JMP @over
PRINT 0
RET 0
end
entry 0
