; A label whose name is too long.
;
; $ x10p asm --explain label_too_long.asm label_too_long.x10
; status 1: asm: line 12 Label
; > label_too_long.asm:12:1: Label: aaaaaaaaaaaaaaaaaaaaaaaaaaaaaaaaa:
; >                                 ^^^^^^^^^^^^^^^^^^^^^^^^^^^^^^^^^^
; > The name of a label has 32 characters at most; this one has 33.
places 1
int 7
func 1 0 none
INTK 0 0
{{33 * a}}:
RET 0
end
entry 0
