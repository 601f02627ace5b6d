{{U+FEFF}}places 1
; A byte order mark is a part of the first word.
;
; $ x10p asm byte_order_mark.asm other.x10
; status 1: asm: line 1 Word
func 1 0 none
RET 0
end
entry 0
