; A rail is copied with its bytes, and once, though two arguments name it. A text arrives as it is.
;
; $ x10p bounds rail_and_text_go_along.x10
; 0 12
; 1 25
; $ x10p run rail_and_text_go_along.x10
; 0: 0
; 1: 255
; 1: 7
; 1: 3
; 1: größer als 中
; takes 39 events
places 2
int 2
int 255
int 0
int 3
int 7
text "größer als 中"
; sets a byte of the first, reads it from the second
func 6 0 none rail rail text
  INTK 3 0
  INTK 4 1
  RSET 0 3 4 @out
  RGET 5 1 3 @out
  PRINT 5
  INTK 3 2
  RGET 5 1 3 @out
  PRINT 5
  RLEN 5 0
  PRINT 5
  PRINT 2
out:
  RET 0
end
; main
func 6 0 none
  INTK 3 3
  RAIL 0 3 @out
  INTK 3 2
  INTK 4 4
  RSET 0 3 4 @out
  MOVE 1 0
  TEXTK 2 0
  PLACEK 5 1
  AT 0 0 5 0
  INTK 3 0
  RGET 4 0 3 @out
  PRINT 4
out:
  RET 0
end
entry 1
