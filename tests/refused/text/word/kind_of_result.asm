; `kind` is no kind, and x no number of registers: Word comes before Number.
;
; $ x10p asm kind_of_result.asm kind_of_result.x10
; status 1: asm: line 6 Word
places 1
func x 0 kind
