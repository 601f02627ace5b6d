; A backslash before the quote that should close a text.
;
; $ x10p asm --explain backslash_before_the_last_quote.asm backslash_before_the_last_quote.x10
; status 1: asm: line 9 Text
; > backslash_before_the_last_quote.asm:9:6: Text: text "C:\\dir\"
; >                                                     ^
; > The last quote belongs to the text, since a backslash is before it; no quote closes it.
places 1
text "C:\\dir\"
func 1 0 none
TEXTK 0 0
PRINT 0
RET 0
end
entry 0
