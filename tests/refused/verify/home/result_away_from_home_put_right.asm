; Without the promise it may return any reference.
;
; $ x10p verify result_away_from_home_put_right.x10
; verified 2 functions, entry bound 7
; $ x10p run result_away_from_home_put_right.x10
; takes 10 events
places 2
class int
int 7
func 1 0 gref:0 gref:0
  RET 0
end
; main
func 4 0 none
  INTK 0 0
  NEW 1 0 0
  GNEW 2 1
  PLACEK 3 1
  AT 2 2 3 0
  RET 0
end
entry 1
