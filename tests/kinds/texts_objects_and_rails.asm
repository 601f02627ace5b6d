; What is accepted of texts, objects and rails, a function for each, and what it does. Registers 0 to 8 have a number,
; a place, a text, a rail, objects of two classes, one that may be null, a reference and one of this place.
;
; $ x10p verify texts_objects_and_rails.x10
; verified 17 functions, entry bound 64
; $ x10p run texts_objects_and_rails.x10
; 0: seven
; 0: 5
; 0: sevenseven
; 0: 3
; 0: 3
; 0: 3
; 0: 3
; 0: 0
; 0: 3
; 0: 5
places 4
class int obj:1
class
int 3
int 5
int 0
text "seven"
text "not so"
text "nothing taken"
; 0: takes and gives nothing
func 4 0 none
  TEXTK 0 2
  PRINT 0
  RET 0
end
; 1: takes a number and gives it
func 4 0 int int
  RET 0
end
; 2: takes a reference whose home is here and gives it
func 4 0 here:0 here:0
  RET 0
end
; 3: makes an object and gives a reference to it
func 3 0 here:0
  INTK 0 0
  NEW 1 0 1
  NEW 0 0 0
  GNEW 0 0
  RET 0
end
; 4: TEXTK
func 12 0 none int place text rail obj:0 obj:1 opt:0 gref:0 here:0
  TEXTK 9 0
  PRINT 9
  RET 0
end
; 5: TLEN
func 12 0 none int place text rail obj:0 obj:1 opt:0 gref:0 here:0
  TLEN 9 2
  PRINT 9
  RET 0
end
; 6: TCAT
func 12 0 none int place text rail obj:0 obj:1 opt:0 gref:0 here:0
  TCAT 9 2 2 @long
  PRINT 9
long:
  RET 0
end
; 7: NEW of a class without fields
func 12 0 none int place text rail obj:0 obj:1 opt:0 gref:0 here:0
  NEW 9 0 1
  RET 0
end
; 8: GET of an object from a field
func 12 0 none int place text rail obj:0 obj:1 opt:0 gref:0 here:0
  GET 9 4 1
  RET 0
end
; 9: PUT of a number into a field
func 12 0 none int place text rail obj:0 obj:1 opt:0 gref:0 here:0
  PUT 4 0 0
  GET 9 4 0
  PRINT 9
  RET 0
end
; 10: NULL
func 12 0 none int place text rail obj:0 obj:1 opt:0 gref:0 here:0
  NULL 9 0
  IFOBJ 9 9 @null
  PRINT 2
null:
  PRINT 0
  RET 0
end
; 11: IFOBJ of what may be null
func 12 0 none int place text rail obj:0 obj:1 opt:0 gref:0 here:0
  IFOBJ 9 6 @null
  GET 9 9 0
  PRINT 9
null:
  RET 0
end
; 12: RAIL
func 12 0 none int place text rail obj:0 obj:1 opt:0 gref:0 here:0
  RAIL 9 0 @no
  RLEN 9 9
  PRINT 9
no:
  RET 0
end
; 13: RGET
func 12 0 none int place text rail obj:0 obj:1 opt:0 gref:0 here:0
  RGET 9 3 0 @no
  PRINT 9
no:
  RET 0
end
; 14: RSET
func 12 0 none int place text rail obj:0 obj:1 opt:0 gref:0 here:0
  RSET 3 0 0 @no
  RGET 9 3 0 @no
  PRINT 9
no:
  RET 0
end
; 15: RLEN
func 12 0 none int place text rail obj:0 obj:1 opt:0 gref:0 here:0
  RLEN 9 3
  PRINT 9
  RET 0
end
; main: calls each
func 12 0 none
  INTK 0 0
  PLACEK 1 1
  TEXTK 2 0
  INTK 9 1
  RAIL 3 9 @no
  INTK 4 1
  NEW 5 0 1
  NEW 4 4 0
  MOVE 6 4
  GNEW 7 4
  MOVE 8 7
  CALL 0 0 4
  CALL 0 0 5
  CALL 0 0 6
  CALL 0 0 7
  CALL 0 0 8
  CALL 0 0 9
  CALL 0 0 10
  CALL 0 0 11
  CALL 0 0 12
  CALL 0 0 13
  CALL 0 0 14
  CALL 0 0 15
no:
  RET 0
end
entry 16
