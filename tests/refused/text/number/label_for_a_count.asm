; A label stands only for where a jump goes, and not for a loop's count.
;
; $ x10p asm label_for_a_count.asm label_for_a_count.x10
; status 1: asm: line 9 Number
places 1
int 7
func 1 0 none
INTK 0 0
LOOP 0 @a
RET 0
end
entry 0
