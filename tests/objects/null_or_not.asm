; IFOBJ of null and of an object: from NULL and NEW, from a field that holds the one and then the other,
; and from a function that gives back either.
;
; $ x10p bounds null_or_not.x10
; 0 4
; 1 5
; 2 58
; $ x10p run null_or_not.x10
; 0: 0
; 0: 7
; 0: 7
; 0: 0
; 0: 7
; 0: 0
; takes 52 events
places 1
class int
class opt:0
int 0
int 7
; what the object holds, or 0
func 2 0 int opt:0
  INTK 1 0
  IFOBJ 0 0 @null
  GET 1 0 0
null:
  RET 1
end
; null where the number is 0, else an object that holds it
func 2 0 opt:0 int
  JZ 0 @null
  NEW 1 0 0
  JMP @done
null:
  NULL 1 0
done:
  RET 1
end
; main
func 6 0 none
  INTK 0 0
  INTK 1 1
; a null
  NULL 2 0
  CALL 3 2 0
  PRINT 3
; an object
  NEW 4 1 0
  CALL 3 4 0
  PRINT 3
; a field with an object, and then with null
  NEW 5 4 1
  GET 2 5 0
  CALL 3 2 0
  PRINT 3
  NULL 2 0
  PUT 5 2 0
  GET 2 5 0
  CALL 3 2 0
  PRINT 3
; both ways
  CALL 2 1 1
  CALL 3 2 0
  PRINT 3
  CALL 2 0 1
  CALL 3 2 0
  PRINT 3
  RET 0
end
entry 2
