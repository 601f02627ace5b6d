; A text between single quotes.
;
; $ x10p asm --explain single_quotes.asm single_quotes.x10
; status 1: asm: line 9 Text
; > single_quotes.asm:9:6: Text: text 'seven'
; >                                   ^^^^^^^
; > A text is between straight double quotes, "; ' is another character.
places 1
text 'seven'
func 1 0 none
TEXTK 0 0
PRINT 0
RET 0
end
entry 0
