; A text that says nothing. `places` is missed in the line after the last: blank lines and comments are lines too.
;
; $ x10p asm comments_alone.asm comments_alone.x10
; status 1: asm: line 8 Order


; nothing