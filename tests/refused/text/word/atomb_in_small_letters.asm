; Operations are in capitals.
;
; $ x10p asm atomb_in_small_letters.asm it.x10
; status 1: asm: line 8 Word
version 2
places 1
func 1 0 none
atomb
ATOME
RET 0
end
entry 0
