; Commas between operands.
;
; $ x10p asm --explain comma.asm comma.x10
; status 1: asm: line 11 Number
; > comma.asm:11:6: Number: INTK 0, 0
; >                              ^^
; > Words are separated by spaces, without commas.
places 1
int 7
func 1 0 none
INTK 0, 0
PRINT 0
RET 0
end
entry 0
