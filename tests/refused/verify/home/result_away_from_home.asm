; The function promises a reference of the place where it returns. The one that it was given may be of any place.
;
; $ x10p verify result_away_from_home.x10
; status 1: verify: Home 0 0
places 2
class int
int 7
func 1 0 here:0 gref:0
  RET 0
end
; main
func 4 0 none
  INTK 0 0
  NEW 1 0 0
  GNEW 2 1
  PLACEK 3 1
  AT 2 2 3 0
  RET 0
end
entry 1
