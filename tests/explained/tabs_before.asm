; Tabs in the line before the word: they stand in the line of the marks too, so that the marks are beneath the word.
;
; $ x10p asm --explain tabs_before.asm tabs_before.x10
; status 1: asm: line 9 Count
; > tabs_before.asm:9:14: Count: text "a	b	c" more
; >                                     	 	   ^^^^
; > A text ends at its second quote, and nothing comes after it; a quote inside it has a backslash before it.
places 1
text "a	b	c" more
func 1 0 none
TEXTK 0 0
PRINT 0
RET 0
end
entry 0
