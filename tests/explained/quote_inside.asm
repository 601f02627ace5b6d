; A quote inside a text.
;
; $ x10p asm --explain quote_inside.asm quote_inside.x10
; status 1: asm: line 9 Text
; > quote_inside.asm:9:10: Text: text "a "big" seven"
; >                                       ^^^^
; > `big"` comes right after the second quote, which ends the text; a quote inside it has a backslash before it.
places 1
text "a "big" seven"
func 1 0 none
TEXTK 0 0
PRINT 0
RET 0
end
entry 0
