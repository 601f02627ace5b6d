; A field has a kind.
;
; $ x10p asm none_in_class.asm none_in_class.x10
; status 1: asm: line 6 Word
places 1
class none
