; What is accepted where two ways meet and in loops: what both ways know and each turn leaves. Registers 0 to 8 have a
; number, a place, a text, a rail, objects of two classes, one that may be null, a reference and one of this place.
; The number is 3 in the first call of each, and 0 in the second.
;
; $ x10p verify ways_and_loops.x10
; verified 13 functions, entry bound 234
; $ x10p run ways_and_loops.x10
; 0: 3
; 0: 3
; 0: 96
; 0: 100663296
; 0: 5
; 0: 5
; 0: 0
; 0: 0
places 4
class int obj:1
class
int 3
int 5
int 0
text "seven"
text "not so"
text "nothing taken"
; 0: takes and gives nothing
func 4 0 none
  TEXTK 0 2
  PRINT 0
  RET 0
end
; 1: takes a number and gives it
func 4 0 int int
  RET 0
end
; 2: takes a reference whose home is here and gives it
func 4 0 here:0 here:0
  RET 0
end
; 3: makes an object and gives a reference to it
func 3 0 here:0
  INTK 0 0
  NEW 1 0 1
  NEW 0 0 0
  GNEW 0 0
  RET 0
end
; 4: set on one way, and not asked for where they meet
func 12 2 none int place text rail obj:0 obj:1 opt:0 gref:0 here:0
  JZ 0 @zero
  INTK 9 0
  PRINT 9
zero:
  RET 0
end
; 5: set on both
func 12 2 none int place text rail obj:0 obj:1 opt:0 gref:0 here:0
  JZ 0 @zero
  INTK 9 0
  JMP @print
zero:
  INTK 9 1
print:
  PRINT 9
  RET 0
end
; 6: an object on one way and null on the other: it may be null
func 12 2 none int place text rail obj:0 obj:1 opt:0 gref:0 here:0
  JZ 0 @on
  NULL 4 0
on:
  IFOBJ 9 4 @null
  GET 9 9 0
  PRINT 9
null:
  RET 0
end
; 7: a number that each turn doubles
func 12 2 none int place text rail obj:0 obj:1 opt:0 gref:0 here:0
  LOOP 0 5
again:
  ADD 0 0 0
  ENDL 0 @again
  PRINT 0
  RET 0
end
; 8: and each turn of a loop in a loop
func 12 2 none int place text rail obj:0 obj:1 opt:0 gref:0 here:0
  LOOP 0 5
outer:
  LOOP 1 5
inner:
  ADD 0 0 0
  ENDL 1 @inner
  ENDL 0 @outer
  PRINT 0
  RET 0
end
; 9: no way leads behind a RET
func 12 2 none int place text rail obj:0 obj:1 opt:0 gref:0 here:0
  RET 0
  PRINT 9
  RET 0
end
; 10: nor to what is jumped over
func 12 2 none int place text rail obj:0 obj:1 opt:0 gref:0 here:0
  JMP @over
  PRINT 9
over:
  RET 0
end
; 11: calls each
func 12 0 none int place text rail obj:0 obj:1 opt:0 gref:0 here:0
  CALL 0 0 4
  CALL 0 0 5
  CALL 0 0 6
  CALL 0 0 7
  CALL 0 0 8
  CALL 0 0 9
  CALL 0 0 10
  RET 0
end
; main: first with a reference of place 1, and then with one of this place and the number 0
func 12 0 none
  INTK 0 0
  PLACEK 1 1
  TEXTK 2 0
  INTK 9 1
  RAIL 3 9 @no
  INTK 4 1
  NEW 5 0 1
  NEW 4 4 0
  MOVE 6 4
  GNEW 7 4
  MOVE 8 7
  AT 7 0 1 3
  CALL 0 0 11
  INTK 0 2
  MOVE 7 8
  CALL 0 0 11
no:
  RET 0
end
entry 12
