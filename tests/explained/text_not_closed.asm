; A text without its second quote.
;
; $ x10p asm --explain text_not_closed.asm text_not_closed.x10
; status 1: asm: line 9 Text
; > text_not_closed.asm:9:6: Text: text "seven
; >                                     ^
; > No second quote closes the text.
places 1
text "seven
func 1 0 none
TEXTK 0 0
PRINT 0
RET 0
end
entry 0
