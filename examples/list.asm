; A linked list, turned round in place. Each object holds a number and the next object, which is
; null at the end. NEW a b x makes an object of class x with the registers from b on as its fields;
; GET and PUT read and change a field. A field of kind opt:0 may be null, and then GET is refused:
; IFOBJ asks first, and goes to its label where there is null, which ends the loops here. Objects
; are shared, not copied: the function that turns the list makes none, and main finds its own ones
; turned.
;
; $ x10p bounds list.x10
; 0 502
; 1 503
; 2 1530
; $ x10p run list.x10
; 0: 5
; 0: 4
; 0: 3
; 0: 2
; 0: 1
; 0: 1
; 0: 2
; 0: 3
; 0: 4
; 0: 5
places 1
class int opt:0
int 0
int 1
; prints a list, of which it follows at most 100 objects
func 3 1 none opt:0
  LOOP 0 100
next:
  IFOBJ 1 0 @end
  GET 2 1 0
  PRINT 2
  GET 0 1 1
  ENDL 0 @next
end:
  RET 0
end
; turns a list of at most 100 objects: each one names the one before it from now on
func 3 1 opt:0 opt:0
  NULL 1 0
  LOOP 0 100
next:
  IFOBJ 2 0 @end
  GET 0 2 1
  PUT 2 1 1
  MOVE 1 2
  ENDL 0 @next
end:
  RET 1
end
; main
func 3 1 none
; the numbers 1 to 5, each put in front of the list
  INTK 0 0
  NULL 1 0
  INTK 2 1
  LOOP 0 5
make:
  ADD 0 0 2
  NEW 1 0 0
  ENDL 0 @make
  CALL 0 1 0
  CALL 1 1 1
  CALL 0 1 0
  RET 0
end
entry 2
