; A label without its colon.
;
; $ x10p asm --explain label_without_colon.asm label_without_colon.x10
; status 1: asm: line 12 Label
; > label_without_colon.asm:12:5: Label: JMP @again
; >                                          ^^^^^^
; > Function 0 has no label `again`.
places 1
int 7
func 1 0 none
INTK 0 0
JMP @again
PRINT 0
again
RET 0
end
entry 0
