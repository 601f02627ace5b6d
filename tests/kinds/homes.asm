; What is known of homes, a function for each, and what it does. Registers 0 to 8 have a number, a place, a text, a
; rail, objects of two classes, one that may be null, a reference and one whose home is this place. The first call of
; each has a reference of place 1 in register 7, the second one of this place. The object of this place has the number
; 5.
;
; $ x10p verify homes.x10
; verified 15 functions, entry bound 148
; $ x10p run homes.x10
; 0: 5
; 0: 1
; 0: 1
; 0: 5
; 0: 5
; 0: 5
; 0: 5
; 0: 5
; 0: 5
; 0: 5
; 0: 5
; 0: 5
places 4
class int obj:1
class
int 3
int 5
int 0
text "seven"
text "not so"
text "nothing taken"
; 0: takes and gives nothing
func 4 0 none
  TEXTK 0 2
  PRINT 0
  RET 0
end
; 1: takes a number and gives it
func 4 0 int int
  RET 0
end
; 2: takes a reference whose home is here and gives it
func 4 0 here:0 here:0
  RET 0
end
; 3: makes an object and gives a reference to it
func 3 0 here:0
  INTK 0 0
  NEW 1 0 1
  NEW 0 0 0
  GNEW 0 0
  RET 0
end
; 4: IFHERE of the reference
func 12 0 none int place text rail obj:0 obj:1 opt:0 gref:0 here:0
  IFHERE 7 @out
  GOPEN 9 7
  GET 9 9 0
  PRINT 9
out:
  RET 0
end
; 5: IFSAME of it and one of this place
func 12 0 none int place text rail obj:0 obj:1 opt:0 gref:0 here:0
  IFSAME 7 8 @out
  GOPEN 9 7
  GET 9 9 0
  PRINT 9
out:
  RET 0
end
; 6: MOVE of one of this place
func 12 0 none int place text rail obj:0 obj:1 opt:0 gref:0 here:0
  MOVE 7 8
  GOPEN 9 7
  GET 9 9 0
  PRINT 9
  RET 0
end
; 7: IFHERE of its home
func 12 0 none int place text rail obj:0 obj:1 opt:0 gref:0 here:0
  HOME 9 7
  IFHERE 9 @out
  GOPEN 9 7
  GET 9 9 0
  PRINT 9
out:
  RET 0
end
; 8: AT at a place that is its home
func 12 0 none int place text rail obj:0 obj:1 opt:0 gref:0 here:0
  IFSAME 1 7 @out
  AT 9 7 1 2
  HOME 9 9
  PLACEI 9 9
  PRINT 9
out:
  RET 0
end
; 9: IFSAME of this place and its home
func 12 0 none int place text rail obj:0 obj:1 opt:0 gref:0 here:0
  HERE 9
  IFSAME 9 7 @out
  GOPEN 9 7
  GET 9 9 0
  PRINT 9
out:
  RET 0
end
; 10: two registers with place 1: AT at the one, which isn't asked for, since the other one is its home
func 12 0 none int place text rail obj:0 obj:1 opt:0 gref:0 here:0
  PLACEK 9 1
  PLACEK 10 1
  IFSAME 9 7 @out
  AT 11 7 10 2
  HOME 11 11
  PLACEI 11 11
  PRINT 11
out:
  RET 0
end
; 11: a result whose home is here
func 12 0 here:0 int place text rail obj:0 obj:1 opt:0 gref:0 here:0
  RET 8
end
; 12: and one that another function promises to be so
func 12 0 here:0 int place text rail obj:0 obj:1 opt:0 gref:0 here:0
  CALL 7 8 2
  RET 7
end
; 13: calls each
func 12 0 none int place text rail obj:0 obj:1 opt:0 gref:0 here:0
  CALL 0 0 4
  CALL 0 0 5
  CALL 0 0 6
  CALL 0 0 7
  CALL 0 0 8
  CALL 0 0 9
  CALL 0 0 10
  CALL 9 0 11
  GOPEN 9 9
  GET 9 9 0
  PRINT 9
  CALL 9 0 12
  GOPEN 9 9
  GET 9 9 0
  PRINT 9
  RET 0
end
; main: first with a reference of place 1, and then with one of this place and the number 0
func 12 0 none
  INTK 0 0
  PLACEK 1 1
  TEXTK 2 0
  INTK 9 1
  RAIL 3 9 @no
  INTK 4 1
  NEW 5 0 1
  NEW 4 4 0
  MOVE 6 4
  GNEW 7 4
  MOVE 8 7
  AT 7 0 1 3
  CALL 0 0 13
  INTK 0 2
  MOVE 7 8
  CALL 0 0 13
no:
  RET 0
end
entry 14
