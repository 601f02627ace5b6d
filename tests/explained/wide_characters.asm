; Characters of several bytes before the word: a column for each.
;
; $ x10p asm --explain wide_characters.asm wide_characters.x10
; status 1: asm: line 9 Count
; > wide_characters.asm:9:23: Count: text "drüben — Ænima" zwölf
; >                                                        ^^^^^
; > A text ends at its second quote, and nothing comes after it; a quote inside it has a backslash before it.
places 1
text "drüben — Ænima" zwölf
func 1 0 none
TEXTK 0 0
PRINT 0
RET 0
end
entry 0
