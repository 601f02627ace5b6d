; A text has at most 65,535 bytes: 65,534 and 1 can be joined, and 65,535 with the empty text, but with 1
; more they can't. Where TCAT goes to its label its register is what it was.
;
; $ x10p bounds joined_to_the_most.x10
; 0 7
; 1 61
; $ x10p run joined_to_the_most.x10
; 0: 65535
; 0: 65535
; 0: 65535
; 0: b
; 0: b
; 0: b
; takes 46 events
places 1
text "{{65534 * a}}"
text "b"
text ""
; two texts: the length of both, or else the text b
func 4 0 none text text
  TEXTK 2 1
  TCAT 2 0 1 @too_long
  TLEN 3 2
  PRINT 3
  RET 0
too_long:
  PRINT 2
  RET 0
end
; main
func 4 0 none
  TEXTK 0 0
  TEXTK 1 1
; 65,534 and 1, both ways round
  CALL 0 0 0
  MOVE 2 0
  MOVE 3 1
  MOVE 0 3
  MOVE 1 2
  CALL 0 0 0
; 65,535 and none
  TCAT 0 2 3 @never
  TEXTK 1 2
  CALL 0 0 0
; 65,535 and 1, both ways round
  MOVE 1 3
  CALL 0 0 0
  MOVE 1 0
  MOVE 0 3
  CALL 0 0 0
; 65,535 and itself
  MOVE 0 1
  CALL 0 0 0
never:
  RET 0
end
entry 1
