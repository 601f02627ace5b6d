; A text of one byte is doubled until it would pass 65,535 bytes: after 15 times it has 32,768, and the
; 16th goes to the label. Then it is doubled with one byte more each time, which comes to 65,535.
;
; $ x10p bounds doubled_in_a_loop.x10
; 0 510
; $ x10p run doubled_in_a_loop.x10
; 0: 32768
; 0: 65535
; takes 90 events
places 1
text "-"
text ""
func 3 1 none
  TEXTK 0 0
  LOOP 0 100
double:
  TCAT 0 0 0 @full
  ENDL 0 @double
full:
  TLEN 1 0
  PRINT 1
; again, with one more
  TEXTK 0 1
  TEXTK 1 0
  LOOP 0 100
more:
  TCAT 2 0 0 @most
  TCAT 0 2 1 @most
  ENDL 0 @more
most:
  TLEN 1 0
  PRINT 1
  RET 0
end
entry 0
