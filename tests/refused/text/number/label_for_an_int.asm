; A label stands only for where a jump goes.
;
; $ x10p asm label_for_an_int.asm label_for_an_int.x10
; status 1: asm: line 9 Number
places 1
int 7
func 1 0 none
INTK 0 0
INTK 0 @a
RET 0
end
entry 0
