; A rail stays where it is kept: a field gets another rail, and the first one is as it was. Lengths differ,
; and each rail has its own bytes.
;
; $ x10p run rail_in_a_field.x10
; 0: 2
; 0: 7
; 0: 3
; 0: 0
; takes 19 events
places 1
class rail
int 0
int 2
int 3
int 7
func 6 0 none
  INTK 0 0
  INTK 1 1
  RAIL 2 1 @end
  INTK 1 3
  RSET 2 0 1 @end
  NEW 3 2 0
  INTK 1 2
  RAIL 4 1 @end
  PUT 3 4 0
; the first
  RLEN 5 2
  PRINT 5
  RGET 5 2 0 @end
  PRINT 5
; the second
  GET 4 3 0
  RLEN 5 4
  PRINT 5
  RGET 5 4 0 @end
  PRINT 5
end:
  RET 0
end
entry 0
