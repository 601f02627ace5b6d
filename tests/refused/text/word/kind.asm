; `kind` is no kind. The class x isn't a number either: Word comes before Number.
;
; $ x10p asm kind.asm kind.x10
; status 1: asm: line 6 Word
places 1
class obj:x kind
