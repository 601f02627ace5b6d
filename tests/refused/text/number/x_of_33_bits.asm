; x goes up to 4294967295.
;
; $ x10p asm x_of_33_bits.asm x_of_33_bits.x10
; status 1: asm: line 9 Number
places 1
int 7
func 1 0 none
INTK 0 0
INTK 0 4294967296
RET 0
end
entry 0
