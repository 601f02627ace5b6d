; A register that is a text on both ways: joined, or as it was where TCAT went to its label.
;
; $ x10p run kept_where_it_is_not_joined.x10
; 0: ab
; 0: b
; takes 12 events
places 1
text "a"
text "b"
text "{{65535 * a}}"
func 2 0 none text text
  TCAT 1 0 1 @either
either:
  PRINT 1
  RET 0
end
func 2 0 none
  TEXTK 0 0
  TEXTK 1 1
  CALL 0 0 0
  TEXTK 0 2
  CALL 0 0 0
  RET 0
end
entry 1
