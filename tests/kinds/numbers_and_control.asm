; What is accepted of numbers, of control and of PRINT, a function for each, and what it does. The parameters are of
; all kinds: a number, a place, a text, a rail, objects of two classes, one that may be null, a reference and one of
; this place.
;
; $ x10p verify numbers_and_control.x10
; verified 16 functions, entry bound 63
; $ x10p run numbers_and_control.x10
; 0: 3
; 0: 1
; 0: 0
; 0: 0
; 0: 1
; 0: 5
; 0: 3
; 0: nothing taken
; 0: 3
; 0: 5
; 0: seven
places 4
class int obj:1
class
int 3
int 5
int 0
text "seven"
text "not so"
text "nothing taken"
; 0: takes and gives nothing
func 4 0 none
  TEXTK 0 2
  PRINT 0
  RET 0
end
; 1: takes a number and gives it
func 4 0 int int
  RET 0
end
; 2: takes a reference whose home is here and gives it
func 4 0 here:0 here:0
  RET 0
end
; 3: makes an object and gives a reference to it
func 3 0 here:0
  INTK 0 0
  NEW 1 0 1
  NEW 0 0 0
  GNEW 0 0
  RET 0
end
; 4: INTK
func 12 0 none int place text rail obj:0 obj:1 opt:0 gref:0 here:0
  INTK 9 0
  PRINT 9
  RET 0
end
; 5: DIV
func 12 0 none int place text rail obj:0 obj:1 opt:0 gref:0 here:0
  DIV 9 0 0 @zero
  PRINT 9
zero:
  RET 0
end
; 6: REM
func 12 0 none int place text rail obj:0 obj:1 opt:0 gref:0 here:0
  REM 9 0 0 @zero
  PRINT 9
zero:
  RET 0
end
; 7: LT
func 12 0 none int place text rail obj:0 obj:1 opt:0 gref:0 here:0
  LT 9 0 0
  PRINT 9
  RET 0
end
; 8: EQ
func 12 0 none int place text rail obj:0 obj:1 opt:0 gref:0 here:0
  EQ 9 0 0
  PRINT 9
  RET 0
end
; 9: MOVE of what may be null
func 12 0 none int place text rail obj:0 obj:1 opt:0 gref:0 here:0
  MOVE 9 6
  IFOBJ 9 9 @null
  GET 9 9 0
  PRINT 9
null:
  RET 0
end
; 10: JZ of a number, to the next instruction
func 12 0 none int place text rail obj:0 obj:1 opt:0 gref:0 here:0
  JZ 0 @next
next:
  PRINT 0
  RET 0
end
; 11: CALL of a function that takes and gives nothing
func 12 0 none int place text rail obj:0 obj:1 opt:0 gref:0 here:0
  CALL 0 0 0
  RET 0
end
; 12: CALL with a number
func 12 0 none int place text rail obj:0 obj:1 opt:0 gref:0 here:0
  CALL 9 0 1
  PRINT 9
  RET 0
end
; 13: CALL with a reference whose home is here, as its result's is
func 12 0 none int place text rail obj:0 obj:1 opt:0 gref:0 here:0
  CALL 9 8 2
  GOPEN 9 9
  GET 9 9 0
  PRINT 9
  RET 0
end
; 14: PRINT of a text
func 12 0 none int place text rail obj:0 obj:1 opt:0 gref:0 here:0
  PRINT 2
  RET 0
end
; main: calls each
func 12 0 none
  INTK 0 0
  PLACEK 1 1
  TEXTK 2 0
  INTK 9 1
  RAIL 3 9 @no
  INTK 4 1
  NEW 5 0 1
  NEW 4 4 0
  MOVE 6 4
  GNEW 7 4
  MOVE 8 7
  CALL 0 0 4
  CALL 0 0 5
  CALL 0 0 6
  CALL 0 0 7
  CALL 0 0 8
  CALL 0 0 9
  CALL 0 0 10
  CALL 0 0 11
  CALL 0 0 12
  CALL 0 0 13
  CALL 0 0 14
no:
  RET 0
end
entry 15
