; A tab is printed, and not a line tabulation.
;
; $ x10p run other_character.x10
; 0: a{{U+000B}}b
places 1
text "a{{U+0009}}b"
func 1 0 none
TEXTK 0 0
PRINT 0
RET 0
end
entry 0
