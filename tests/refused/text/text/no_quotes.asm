; A text stands in quotes.
;
; $ x10p asm no_quotes.asm no_quotes.x10
; status 1: asm: line 6 Text
places 1
text a
