; A line of 65,535 bytes, from the code and joined.
;
; $ x10p run longest_printed.x10
; 0: {{65535 * a}}
; 0: {{21845 * →}}
; 0: {{32767 * ab}}a
; takes 11 events
places 1
text "{{65535 * a}}"
text "{{21845 * →}}"
text "{{16384 * ab}}"
text "{{16383 * ab}}a"
text "b"
func 2 0 none
  TEXTK 0 0
  PRINT 0
  TEXTK 0 1
  PRINT 0
; 32,768 bytes and 32,767; one more would be too many
  TEXTK 0 2
  TEXTK 1 3
  TCAT 0 0 1 @none
  TEXTK 1 4
  TCAT 0 0 1 @whole
none:
  RET 0
whole:
  PRINT 0
  RET 0
end
entry 0
