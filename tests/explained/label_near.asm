; A label that is misspelt where it is used: the nearest is named.
;
; $ x10p asm --explain label_near.asm label_near.x10
; status 1: asm: line 12 Label
; > label_near.asm:12:5: Label: JMP @uot
; >                                 ^^^^
; > Function 0 has no label `uot`. The nearest is `out`, in line 14.
places 1
int 7
func 1 0 none
INTK 0 0
JMP @uot
PRINT 0
out:
RET 0
end
entry 0
