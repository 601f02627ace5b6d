; A label stands only for where a jump goes, and not for a function.
;
; $ x10p asm label_for_a_function.asm label_for_a_function.x10
; status 1: asm: line 8 Number
places 1
func 1 0 none
a:
ASYNC 0 @a
RET 0
end
entry 0
