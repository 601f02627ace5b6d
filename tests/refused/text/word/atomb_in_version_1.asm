; A text without the line `version 2` has no ATOMB.
;
; $ x10p asm atomb_in_version_1.asm it.x10
; status 1: asm: line 8 Word
places 1
int 7
func 1 0 none
ATOMB
INTK 0 0
ATOME
RET 0
end
entry 0
