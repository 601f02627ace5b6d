; A label has a name.
;
; $ x10p asm no_name.asm no_name.x10
; status 1: asm: line 9 Label
places 1
int 7
func 1 0 none
INTK 0 0
:
RET 0
end
entry 0
