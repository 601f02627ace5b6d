; What is accepted of places, references, activities and finishes, a function for each, and what it does. Registers 0
; to 8 have a number, a place, a text, a rail, objects of two classes, one that may be null, a reference and one of
; this place.
;
; $ x10p verify places_and_activities.x10
; verified 19 functions, entry bound 81
; $ x10p run places_and_activities.x10
; 0: 0
; 0: 3
; 0: 3
; 0: 2
; 0: 4
; 0: 0
; 0: 5
; 0: 5
; 0: not so
; 0: not so
; 0: nothing taken
; 0: 3
; 1: nothing taken
places 4
class int obj:1
class
int 3
int 5
int 0
text "seven"
text "not so"
text "nothing taken"
; 0: takes and gives nothing
func 4 0 none
  TEXTK 0 2
  PRINT 0
  RET 0
end
; 1: takes a number and gives it
func 4 0 int int
  RET 0
end
; 2: takes a reference whose home is here and gives it
func 4 0 here:0 here:0
  RET 0
end
; 3: makes an object and gives a reference to it
func 3 0 here:0
  INTK 0 0
  NEW 1 0 1
  NEW 0 0 0
  GNEW 0 0
  RET 0
end
; 4: HERE
func 12 0 none int place text rail obj:0 obj:1 opt:0 gref:0 here:0
  HERE 9
  PLACEI 9 9
  PRINT 9
  RET 0
end
; 5: PLACEK
func 12 0 none int place text rail obj:0 obj:1 opt:0 gref:0 here:0
  PLACEK 9 3
  PLACEI 9 9
  PRINT 9
  RET 0
end
; 6: PLACEN
func 12 0 none int place text rail obj:0 obj:1 opt:0 gref:0 here:0
  PLACEN 9 0 @none
  PLACEI 9 9
  PRINT 9
none:
  RET 0
end
; 7: NEXTP
func 12 0 none int place text rail obj:0 obj:1 opt:0 gref:0 here:0
  NEXTP 9 1
  PLACEI 9 9
  PRINT 9
  RET 0
end
; 8: COUNT
func 12 0 none int place text rail obj:0 obj:1 opt:0 gref:0 here:0
  COUNT 9
  PRINT 9
  RET 0
end
; 9: HOME
func 12 0 none int place text rail obj:0 obj:1 opt:0 gref:0 here:0
  HOME 9 7
  PLACEI 9 9
  PRINT 9
  RET 0
end
; 10: GNEW
func 12 0 none int place text rail obj:0 obj:1 opt:0 gref:0 here:0
  GNEW 9 4
  GOPEN 9 9
  GET 9 9 0
  PRINT 9
  RET 0
end
; 11: GOPEN of a reference whose home is here
func 12 0 none int place text rail obj:0 obj:1 opt:0 gref:0 here:0
  GOPEN 9 8
  GET 9 9 0
  PRINT 9
  RET 0
end
; 12: IFHERE of a place
func 12 0 none int place text rail obj:0 obj:1 opt:0 gref:0 here:0
  IFHERE 1 @away
  PRINT 0
  JMP @out
away:
  TEXTK 9 1
  PRINT 9
out:
  RET 0
end
; 13: IFSAME of a place and the home of a reference
func 12 0 none int place text rail obj:0 obj:1 opt:0 gref:0 here:0
  IFSAME 1 7 @other
  PRINT 0
  JMP @out
other:
  TEXTK 9 1
  PRINT 9
out:
  RET 0
end
; 14: ASYNC of a function that gives nothing
func 12 0 none int place text rail obj:0 obj:1 opt:0 gref:0 here:0
  ASYNC 0 0
  RET 0
end
; 15: AT with a number
func 12 0 none int place text rail obj:0 obj:1 opt:0 gref:0 here:0
  AT 9 0 1 1
  PRINT 9
  RET 0
end
; 16: ATA of a function that gives nothing
func 12 0 none int place text rail obj:0 obj:1 opt:0 gref:0 here:0
  ATA 0 1 0
  RET 0
end
; 17: FINB and FINE
func 12 0 none int place text rail obj:0 obj:1 opt:0 gref:0 here:0
  FINB
  FINE
  RET 0
end
; main: calls each
func 12 0 none
  INTK 0 0
  PLACEK 1 1
  TEXTK 2 0
  INTK 9 1
  RAIL 3 9 @no
  INTK 4 1
  NEW 5 0 1
  NEW 4 4 0
  MOVE 6 4
  GNEW 7 4
  MOVE 8 7
  CALL 0 0 4
  CALL 0 0 5
  CALL 0 0 6
  CALL 0 0 7
  CALL 0 0 8
  CALL 0 0 9
  CALL 0 0 10
  CALL 0 0 11
  CALL 0 0 12
  CALL 0 0 13
  CALL 0 0 14
  CALL 0 0 15
  CALL 0 0 16
  CALL 0 0 17
no:
  RET 0
end
entry 18
