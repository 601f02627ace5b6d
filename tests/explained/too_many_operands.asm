; A word too many.
;
; $ x10p asm --explain too_many_operands.asm too_many_operands.x10
; status 1: asm: line 13 Count
; > too_many_operands.asm:13:17: Count:    ADD  0 0   0 17 18
; >                                                     ^^
; > `17` is one word too many.
; > Expected: ADD REGISTER REGISTER REGISTER.
places 1
int 7
func 1 0 none
INTK 0 0
   ADD  0 0   0 17 18
PRINT 0
RET 0
end
entry 0
