; Where IFOBJ meets null its register isn't written: it holds the object that it held before.
;
; $ x10p run register_kept_at_null.x10
; 0: 7
; 0: 9
; takes 18 events
places 1
class int
int 7
int 9
int 11
; what the first object holds, or the second where the first is null
func 2 0 int opt:0 obj:0
  IFOBJ 1 0 @either
either:
  GET 0 1 0
  RET 0
end
func 4 0 none
; objects with 7, 9 and 11
  INTK 0 0
  NEW 1 0 0
  INTK 0 1
  NEW 2 0 0
  INTK 0 2
  NEW 3 0 0
; the object with 7, and the one with 9
  CALL 0 1 0
  PRINT 0
; null, and the object with 9
  NULL 1 0
  CALL 0 1 0
  PRINT 0
  RET 0
end
entry 1
