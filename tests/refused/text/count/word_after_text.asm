; Nothing follows a text.
;
; $ x10p asm word_after_text.asm word_after_text.x10
; status 1: asm: line 6 Count
places 1
text "a" b
