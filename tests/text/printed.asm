; Texts of every sort are printed as their bytes stand: an empty one, blanks at both ends, quotes,
; backslashes, line feeds, what looks like a comment or a number, and letters of two, three and four
; bytes.
;
; $ x10p bounds printed.x10
; 0 25
; $ x10p run printed.x10
; 0:{{U+0020}}
; 0:  a  b {{U+0020}}
; 0: say "yes"
; 0: a\b\nc
; 0: two
; lines
; 0:{{U+0020}}
; .
; 0: ; no comment
; 0: -7
; 0: é ß ё
; 0: → 字 �
; 0: 😀 𝒳
; 0: 0: 0
; takes 25 events
places 1
text ""
text " a  b  "
text "say \"yes\""
text "a\\b\\nc"
text "two\nlines"
text "\n."
text "; no comment"
text "-7"
text "é ß ё"
text "→ 字 �"
text "😀 𝒳"
text "0: 0"
func 1 0 none
  TEXTK 0 0
  PRINT 0
  TEXTK 0 1
  PRINT 0
  TEXTK 0 2
  PRINT 0
  TEXTK 0 3
  PRINT 0
  TEXTK 0 4
  PRINT 0
  TEXTK 0 5
  PRINT 0
  TEXTK 0 6
  PRINT 0
  TEXTK 0 7
  PRINT 0
  TEXTK 0 8
  PRINT 0
  TEXTK 0 9
  PRINT 0
  TEXTK 0 10
  PRINT 0
  TEXTK 0 11
  PRINT 0
  RET 0
end
entry 0
