; Joined texts stand one behind the other, in the order of the operands; either may be empty, both may
; be one register, and the result may go where an operand was. The texts that are joined stay as they
; are.
;
; $ x10p bounds joined.x10
; 0 31
; $ x10p run joined.x10
; 0: one, two
; 0: two, one
; 0: one
; 0: one
; 0:{{U+0020}}
; 0: oneone
; 0: one,{{U+0020}}
; 0: two, one, two
; 0: one
; 0: é😀
; takes 31 events
places 1
text "one"
text ", "
text "two"
text ""
text "é"
text "😀"
func 6 0 none
  TEXTK 0 0
  TEXTK 1 1
  TEXTK 2 2
  TEXTK 3 3
; one, two
  TCAT 4 0 1 @none
  TCAT 4 4 2 @none
  PRINT 4
; two, one
  TCAT 4 2 1 @none
  TCAT 4 4 0 @none
  PRINT 4
; with the empty text, on both sides and with itself
  TCAT 4 0 3 @none
  PRINT 4
  TCAT 4 3 0 @none
  PRINT 4
  TCAT 4 3 3 @none
  PRINT 4
; with itself
  TCAT 4 0 0 @none
  PRINT 4
; what register 5 keeps is the same before and after register 4 is joined
  TCAT 4 0 1 @none
  MOVE 5 4
  TCAT 4 4 2 @none
  PRINT 5
; into the second operand
  TCAT 4 1 4 @none
  TCAT 4 2 4 @none
  PRINT 4
  PRINT 0
; letters of several bytes
  TEXTK 4 4
  TEXTK 5 5
  TCAT 5 4 5 @none
  PRINT 5
none:
  RET 0
end
entry 0
