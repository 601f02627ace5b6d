; A text without the line `version 2` has no ATOME. Its operands aren't looked at.
;
; $ x10p asm atome_in_version_1.asm it.x10
; status 1: asm: line 8 Word
places 1
int 7
func 1 0 none
ATOME 0
RET 0
end
entry 0
