; Only a quote, a backslash and n stand behind a backslash.
;
; $ x10p asm escape.asm escape.x10
; status 1: asm: line 6 Text
places 1
text "a\t"
