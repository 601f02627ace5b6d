; An object with the most fields, of all kinds but Place and GRef. Two of them are changed; then each is
; got, and what stands in it is printed.
;
; $ x10p bounds sixteen_fields.x10
; 0 3
; 1 3
; 2 5
; 3 80
; $ x10p run sixteen_fields.x10
; 0: 1
; 0: one
; 0: 5
; 0: 1
; 0: 1
; 0: 2
; 0: two
; 0: 6
; 0: 1
; 0: -1
; 0: three
; 0: 7
; 0: 3
; 0: 9
; 0: 9
; 0: three
; takes 79 events
places 1
class int text rail obj:1 opt:1 int text rail obj:1 opt:1 text rail int int int text
class int
int 1
int 2
int 3
int 5
int 6
int 7
int 9
int -1
text "one"
text "two"
text "three"
; the length of a rail, what an object holds, and what an object holds or else -1
func 2 0 none rail
  RLEN 0 0
  PRINT 0
  RET 0
end
func 2 0 none obj:1
  GET 0 0 0
  PRINT 0
  RET 0
end
func 2 0 none opt:1
  INTK 1 7
  IFOBJ 0 0 @print
  GET 1 0 0
print:
  PRINT 1
  RET 0
end
; main
func 20 0 none
  INTK 0 0
  TEXTK 1 0
  INTK 2 3
  RAIL 2 2 @none
  NEW 3 0 1
  MOVE 4 3
  INTK 5 1
  TEXTK 6 1
  INTK 7 4
  RAIL 7 7 @none
  MOVE 8 3
  NULL 9 1
  TEXTK 10 2
  INTK 11 5
  RAIL 11 11 @none
  INTK 12 2
  INTK 13 6
  INTK 14 0
  TEXTK 15 0
  NEW 16 0 0
; the last two change
  PUT 16 13 14
  PUT 16 10 15
  GET 17 16 0
  PRINT 17
  GET 17 16 1
  PRINT 17
  GET 17 16 2
  CALL 0 17 0
  GET 17 16 3
  CALL 0 17 1
  GET 17 16 4
  CALL 0 17 2
  GET 17 16 5
  PRINT 17
  GET 17 16 6
  PRINT 17
  GET 17 16 7
  CALL 0 17 0
  GET 17 16 8
  CALL 0 17 1
  GET 17 16 9
  CALL 0 17 2
  GET 17 16 10
  PRINT 17
  GET 17 16 11
  CALL 0 17 0
  GET 17 16 12
  PRINT 17
  GET 17 16 13
  PRINT 17
  GET 17 16 14
  PRINT 17
  GET 17 16 15
  PRINT 17
none:
  RET 0
end
entry 3
