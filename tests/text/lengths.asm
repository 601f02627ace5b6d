; A length counts bytes, not characters: none, one, an escape that stands for one, the number 0, letters
; of two, three and four bytes, a letter with an accent of its own, and the most.
;
; $ x10p bounds lengths.x10
; 0 3
; 1 51
; $ x10p run lengths.x10
; 0: 0
; 0: 1
; 0: 1
; 0: 1
; 0: 2
; 0: 3
; 0: 4
; 0: 3
; 0: 65535
; 0: 65535
; takes 51 events
places 1
text ""
text "a"
text "\n"
text "{{U+0000}}"
text "é"
text "→"
text "😀"
text "e{{U+0301}}"
text "{{65535 * a}}"
text "{{21845 * →}}"
func 1 0 none text
  TLEN 0 0
  PRINT 0
  RET 0
end
func 1 0 none
  TEXTK 0 0
  CALL 0 0 0
  TEXTK 0 1
  CALL 0 0 0
  TEXTK 0 2
  CALL 0 0 0
  TEXTK 0 3
  CALL 0 0 0
  TEXTK 0 4
  CALL 0 0 0
  TEXTK 0 5
  CALL 0 0 0
  TEXTK 0 6
  CALL 0 0 0
  TEXTK 0 7
  CALL 0 0 0
  TEXTK 0 8
  CALL 0 0 0
  TEXTK 0 9
  CALL 0 0 0
  RET 0
end
entry 1
