; A text in a field: another object that is given the same text keeps it when the first gets a new one.
;
; $ x10p bounds text_in_a_field.x10
; 0 18
; $ x10p run text_in_a_field.x10
; 0: red
; 0: green
; 0: red
; 0: redgreen
; 0: green
; takes 18 events
places 1
class text
text "red"
text "green"
func 6 0 none
  TEXTK 0 0
  NEW 1 0 0
  GET 2 1 0
  PRINT 2
  NEW 3 2 0
  TEXTK 0 1
  PUT 1 0 0
  GET 2 1 0
  PRINT 2
  GET 4 3 0
  PRINT 4
  TCAT 5 4 2 @end
  PUT 3 5 0
  GET 4 3 0
  PRINT 4
  GET 2 1 0
  PRINT 2
end:
  RET 0
end
entry 0
