; A text may have each character but a surrogate, and is printed as it is: the number 0, a tab, a
; vertical tab, a form feed, a carriage return, escape and delete, what Unicode says ends a line or a
; paragraph, a mark of the order of bytes, a noncharacter, and the last character of all.
;
; $ x10p run control_characters.x10
; 0: a{{U+0000}}b
; 0: a{{U+0009}}b{{U+000B}}c{{U+000C}}d
; 0: a{{U+000D}}b
; 0: {{U+001B}}[0m{{U+007F}}
; 0: {{U+0085}}{{U+2028}}{{U+2029}}
; 0: {{U+FEFF}}{{U+FFFF}}
; 0: {{U+10FFFF}}
; takes 15 events
places 1
text "a{{U+0000}}b"
text "a{{U+0009}}b{{U+000B}}c{{U+000C}}d"
text "a{{U+000D}}b"
text "{{U+001B}}[0m{{U+007F}}"
text "{{U+0085}}{{U+2028}}{{U+2029}}"
text "{{U+FEFF}}{{U+FFFF}}"
text "{{U+10FFFF}}"
func 1 0 none
  TEXTK 0 0
  PRINT 0
  TEXTK 0 1
  PRINT 0
  TEXTK 0 2
  PRINT 0
  TEXTK 0 3
  PRINT 0
  TEXTK 0 4
  PRINT 0
  TEXTK 0 5
  PRINT 0
  TEXTK 0 6
  PRINT 0
  RET 0
end
entry 0
