; Objects of a class without fields are made, moved, kept in a field and told from null.
;
; $ x10p bounds no_fields.x10
; 0 4
; 1 26
; $ x10p run no_fields.x10
; 0: 1
; 0: 0
; 0: 1
; takes 25 events
places 1
class
class opt:0
int 0
int 1
; 1 where there is an object, 0 where there is null
func 2 0 int opt:0
  INTK 1 0
  IFOBJ 0 0 @null
  INTK 1 1
null:
  RET 1
end
func 4 0 none
  NEW 0 0 0
  CALL 1 0 0
  PRINT 1
  NULL 0 0
  NEW 2 0 1
  GET 0 2 0
  CALL 1 0 0
  PRINT 1
  NEW 0 0 0
  PUT 2 0 0
  GET 3 2 0
  CALL 1 3 0
  PRINT 1
  RET 0
end
entry 1
