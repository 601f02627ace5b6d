; 65,536 bytes, one too many.
;
; $ x10p asm too_long.asm too_long.x10
; status 1: asm: line 6 Text
places 1
text "{{65536 * \n}}"
func 1 0 none
RET 0
end
entry 0
