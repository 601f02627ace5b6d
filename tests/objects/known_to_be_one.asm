; IFOBJ may be asked of what is known to be an object; it never goes to its label then. An object may also
; stand where one that may be null is asked for: in a field, as an argument and as a result.
;
; $ x10p bounds known_to_be_one.x10
; 0 1
; 1 4
; 2 24
; $ x10p run known_to_be_one.x10
; 0: 7
; 0: 7
; 0: 7
; takes 24 events
places 1
class int
class opt:0
int 7
; an object as one that may be null
func 1 0 opt:0 obj:0
  RET 0
end
; prints what the object holds, and nothing where there is none
func 1 0 none opt:0
  IFOBJ 0 0 @null
  GET 0 0 0
  PRINT 0
null:
  RET 0
end
; main
func 4 0 none
  INTK 0 0
  NEW 1 0 0
  IFOBJ 2 1 @null
  CALL 0 2 1
; in a field
  NEW 2 1 1
  PUT 2 1 0
  GET 3 2 0
  CALL 0 3 1
; a result
  CALL 3 1 0
  CALL 0 3 1
null:
  RET 0
end
entry 2
