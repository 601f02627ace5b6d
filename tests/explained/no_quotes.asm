; A text without quotes.
;
; $ x10p asm --explain no_quotes.asm no_quotes.x10
; status 1: asm: line 9 Text
; > no_quotes.asm:9:6: Text: text seven
; >                               ^^^^^
; > A text is between quotes: text "..".
places 1
text seven
func 1 0 none
TEXTK 0 0
PRINT 0
RET 0
end
entry 0
