; One argument of each kind arrives at place 1: a number, a text, a rail, an object, null, a place and a global
; reference.
;
; $ x10p bounds every_kind.x10
; 0 17
; 1 32
; $ x10p run every_kind.x10
; 1: 11
; 1: two
; 1: 200
; 1: 33
; 1: 0
; 1: 0
; 1: 0
; takes 49 events
places 2
class int
int 1
int 0
int 2
int 200
int 33
int 11
text "two"
; shows what it was given
func 10 0 none int text rail obj:0 opt:0 place gref:0
  PRINT 0
  PRINT 1
  INTK 7 0
  RGET 8 2 7 @out
  PRINT 8
  GET 8 3 0
  PRINT 8
  IFOBJ 8 4 @null
out:
  RET 0
null:
  INTK 8 1
  PRINT 8
  PLACEI 8 5
  PRINT 8
  HOME 9 6
  PLACEI 8 9
  PRINT 8
  RET 0
end
; main
func 10 0 none
  INTK 8 2
  RAIL 2 8 @out
  INTK 7 0
  INTK 9 3
  RSET 2 7 9 @out
  INTK 9 4
  NEW 3 9 0
  NULL 4 0
  HERE 5
  GNEW 6 3
  INTK 0 5
  TEXTK 1 0
  PLACEK 9 1
  AT 0 0 9 0
out:
  RET 0
end
entry 1
