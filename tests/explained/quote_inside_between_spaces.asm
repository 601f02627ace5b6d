; A quote inside a text, with spaces around it.
;
; $ x10p asm --explain quote_inside_between_spaces.asm quote_inside_between_spaces.x10
; status 1: asm: line 9 Count
; > quote_inside_between_spaces.asm:9:11: Count: text "a " b"
; >                                                        ^^
; > A text ends at its second quote, and nothing comes after it; a quote inside it has a backslash before it.
places 1
text "a " b"
func 1 0 none
TEXTK 0 0
PRINT 0
RET 0
end
entry 0
