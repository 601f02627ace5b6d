; Two activities write into one object. The first puts a text there that it has made, and the second an object that it
; has made; main finds both when it has waited.
;
; $ x10p bounds one_object.x10
; 0 5
; 1 4
; 2 14
; $ x10p run one_object.x10
; 0: made by an activity
; 0: 7
; takes 27 events
places 1
class text opt:1
class int
int 7
text "made "
text "by an activity"
; puts a text that it has made into field 0
func 3 0 none obj:0
  TEXTK 1 0
  TEXTK 2 1
  TCAT 1 1 2 @out
  PUT 0 1 0
out:
  RET 0
end
; puts an object that it has made into field 1
func 2 0 none obj:0
  INTK 1 0
  NEW 1 1 1
  PUT 0 1 1
  RET 0
end
; main
func 3 0 none
  TEXTK 0 0
  NULL 1 1
  NEW 2 0 0
  FINB
  ASYNC 2 0
  ASYNC 2 1
  FINE
  GET 0 2 0
  PRINT 0
  GET 1 2 1
  IFOBJ 1 1 @out
  GET 0 1 0
  PRINT 0
out:
  RET 0
end
entry 2
