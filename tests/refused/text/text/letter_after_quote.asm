; A space stands behind the text.
;
; $ x10p asm letter_after_quote.asm letter_after_quote.x10
; status 1: asm: line 6 Text
places 1
text "a"b
