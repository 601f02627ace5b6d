; A text has its quotes.
;
; $ x10p asm text_alone.asm text_alone.x10
; status 1: asm: line 6 Count
places 1
text
