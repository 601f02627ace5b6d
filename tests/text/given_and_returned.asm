; Texts given to functions and given back: each of the two, and both joined.
;
; $ x10p bounds given_and_returned.x10
; 0 1
; 1 1
; 2 4
; 3 15
; $ x10p run given_and_returned.x10
; 0: left
; 0: right
; 0: left and right
; takes 15 events
places 1
text "left"
text "right"
text " and "
func 2 0 text text text
  RET 0
end
func 2 0 text text text
  RET 1
end
func 3 0 text text text
  TEXTK 2 2
  TCAT 0 0 2 @given
  TCAT 0 0 1 @given
given:
  RET 0
end
func 3 0 none
  TEXTK 0 0
  TEXTK 1 1
  CALL 2 0 0
  PRINT 2
  CALL 2 0 1
  PRINT 2
  CALL 2 0 2
  PRINT 2
  RET 0
end
entry 3
