; A text, an object, null, a rail and a place come back as results.
;
; $ x10p bounds results_of_every_kind.x10
; 0 2
; 1 4
; 2 2
; 3 4
; 4 2
; 5 34
; $ x10p run results_of_every_kind.x10
; 0: 4
; 0: from place 1
; 0: 3
; 0: inside
; 0: 1
; takes 55 events
places 2
class int text
int 3
int 4
text "from place 1"
text "inside"
func 1 0 text
  TEXTK 0 0
  RET 0
end
func 2 0 obj:0
  INTK 0 0
  TEXTK 1 1
  NEW 0 0 0
  RET 0
end
func 1 0 opt:0
  NULL 0 0
  RET 0
end
; a rail with as many bytes as the one that comes, or that one
func 3 0 rail rail
  RLEN 1 0
  RAIL 2 1 @same
  RET 2
same:
  RET 0
end
func 1 0 place
  HERE 0
  RET 0
end
; main
func 4 0 none
  PLACEK 0 1
  INTK 2 1
  RAIL 3 2 @never
  AT 1 3 0 3
  RLEN 2 1
  PRINT 2
  AT 1 0 0 0
  PRINT 1
  AT 1 0 0 1
  GET 2 1 0
  PRINT 2
  GET 2 1 1
  PRINT 2
  AT 1 0 0 2
  IFOBJ 2 1 @is_null
  RET 0
is_null:
  AT 1 0 0 4
  PLACEI 2 1
  PRINT 2
never:
  RET 0
end
entry 5
