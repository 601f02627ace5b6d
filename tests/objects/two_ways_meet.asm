; Where a way with an object and a way with null meet it may be null, and IFOBJ tells which it was. Where
; both ways have an object it is one, and its field can be got.
;
; $ x10p bounds two_ways_meet.x10
; 0 9
; 1 10
; 2 45
; $ x10p run two_ways_meet.x10
; 0: 1
; 0: 2
; 0: 7
; 0: -1
; takes 35 events
places 1
class int
int 0
int 1
int 2
int 7
int -1
; prints 1 where the number is 0, else 2
func 2 0 none int
  JZ 0 @one
  INTK 0 2
  NEW 1 0 0
  JMP @print
one:
  INTK 0 1
  NEW 1 0 0
print:
  GET 0 1 0
  PRINT 0
  RET 0
end
; prints 7 where the number is 0, else -1
func 2 0 none int
  JZ 0 @seven
  NULL 1 0
  JMP @print
seven:
  INTK 0 3
  NEW 1 0 0
print:
  INTK 0 4
  IFOBJ 1 1 @null
  GET 0 1 0
null:
  PRINT 0
  RET 0
end
; main
func 2 0 none
  INTK 0 0
  INTK 1 1
  CALL 0 0 0
  CALL 0 1 0
  CALL 0 0 1
  CALL 0 1 1
  RET 0
end
entry 2
