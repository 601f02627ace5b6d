; What may stand inside a region: numbers, jumps, loops, texts, objects, rails, places and references, and PRINT. The
; jumps of DIV, TCAT, IFOBJ, RGET, PLACEN, IFHERE and IFSAME go to the ATOME at most.
;
; $ x10p bounds every_group_inside.x10
; 0 32
; $ x10p run every_group_inside.x10
; 0: abab
; 0: 4
; 0: 3
; 0: 0
; 0: 9
; $ x10p run every_group_inside.x10 --threads
; 0: abab
; 0: 4
; 0: 3
; 0: 0
; 0: 9
version 2
places 1
class int
int 9
int 3
int 0
text "ab"
func 7 1 none
  ATOMB
  INTK 0 0
  INTK 1 1
  INTK 2 2
  TEXTK 3 0
  TCAT 3 3 3 @out
  PRINT 3
  TLEN 4 3
  PRINT 4
  DIV 4 0 1 @out
  PRINT 4
  RAIL 5 0 @out
  RSET 5 2 0 @out
  HERE 3
  PLACEN 4 2 @out
  IFSAME 3 4 @out
  PLACEI 4 3
  PRINT 4
  NEW 3 0 0
  GNEW 4 3
  IFHERE 4 @out
  GOPEN 6 4
  NULL 3 0
  MOVE 3 6
  GET 0 3 0
  RGET 0 5 2 @out
  LOOP 0 1
again:
  ENDL 0 @again
  PRINT 0
  JMP @out
out:
  ATOME
  RET 0
end
entry 0
