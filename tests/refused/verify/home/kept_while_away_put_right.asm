; Back at place 0 it may be opened: what main knew of its registers holds after the AT.
;
; $ x10p verify kept_while_away_put_right.x10
; verified 2 functions, entry bound 11
; $ x10p run kept_while_away_put_right.x10
; 0: 7
; takes 15 events
places 2
class int
int 7
func 2 0 none gref:0
  HOME 1 0
  RET 0
end
; main
func 4 0 none
  INTK 0 0
  NEW 1 0 0
  GNEW 2 1
  PLACEK 3 1
  AT 0 2 3 0
  GOPEN 1 2
  GET 0 1 0
  PRINT 0
  RET 0
end
entry 1
