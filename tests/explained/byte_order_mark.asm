{{U+FEFF}}; A byte order mark before the first line.
;
; $ x10p asm --explain byte_order_mark.asm byte_order_mark.x10
; status 1: asm: line 1 Word
; > byte_order_mark.asm:1:1: Word: ﻿; A byte order mark before the first line.
; >                                ^^
; > The text begins with a byte order mark: save it without one.
places 1
int 7
func 1 0 none
INTK 0 0
PRINT 0
RET 0
end
entry 0
