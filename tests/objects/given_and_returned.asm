; An object that is given to a function is the same object there: what the function puts into it its
; caller finds. What a function makes and gives back stays when it ends, and an object that comes back is
; the one that went.
;
; $ x10p bounds given_and_returned.x10
; 0 2
; 1 2
; 2 1
; 3 26
; $ x10p run given_and_returned.x10
; 0: 2
; 0: 3
; 0: 5
; 0: 5
; 0: 2
; takes 26 events
places 1
class int
int 1
int 2
int 3
int 5
; puts a number into an object
func 2 0 none obj:0 int
  PUT 0 1 0
  RET 0
end
; a new object with the number
func 2 0 obj:0 int
  NEW 1 0 0
  RET 1
end
; the same object, as one that may be null
func 1 0 opt:0 obj:0
  RET 0
end
; main
func 6 0 none
  INTK 1 0
  NEW 0 1 0
  INTK 1 1
  CALL 0 0 0
  GET 2 0 0
  PRINT 2
; made and given back
  INTK 1 2
  CALL 3 1 1
  GET 2 3 0
  PRINT 2
; there and back
  CALL 4 3 2
  IFOBJ 4 4 @end
  INTK 1 3
  PUT 4 1 0
  GET 2 3 0
  PRINT 2
  GET 2 4 0
  PRINT 2
  GET 2 0 0
  PRINT 2
end:
  RET 0
end
entry 3
