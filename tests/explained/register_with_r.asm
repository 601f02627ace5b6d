; A register written as in other assemblers.
;
; $ x10p asm --explain register_with_r.asm register_with_r.x10
; status 1: asm: line 12 Number
; > register_with_r.asm:12:6: Number: INTK r0 0
; >                                        ^^
; > `r0`: a register is its number alone, without r.
; > Expected: INTK REGISTER INT.
places 1
int 7
func 1 0 none
INTK r0 0
PRINT 0
RET 0
end
entry 0
