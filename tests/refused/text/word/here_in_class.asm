; The home flag is for parameters and results, not for fields.
;
; $ x10p asm here_in_class.asm here_in_class.x10
; status 1: asm: line 6 Word
places 1
class here:0
