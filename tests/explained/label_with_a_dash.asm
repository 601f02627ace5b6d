; A label with a character that names don't have.
;
; $ x10p asm --explain label_with_a_dash.asm label_with_a_dash.x10
; status 1: asm: line 12 Label
; > label_with_a_dash.asm:12:5: Label: JMP @the-end
; >                                        ^^^^^^^^
; > The name of a label has letters from A to Z and a to z, digits and _ alone; `-` is none of them.
places 1
int 7
func 1 0 none
INTK 0 0
JMP @the-end
the-end:
RET 0
end
entry 0
