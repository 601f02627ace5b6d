; An activity with an argument of every kind: a number, a text, a rail, an object, null, an object where null may be, a
; place, a global reference, and one whose home is here. It prints what each of them holds, and nothing for null.
;
; $ x10p bounds every_kind.x10
; 0 22
; 1 15
; $ x10p run every_kind.x10
; 0: 5
; 0: text
; 0: 20
; 0: 1
; 0: 30
; 0: 0
; 0: 1
; 0: 30
; takes 35 events
; $ x10p run every_kind.x10 --places 3
; 0: 5
; 0: text
; 0: 20
; 0: 1
; 0: 30
; 0: 0
; 0: 1
; 0: 30
; takes 35 events
places 1
class int
int 5
int 1
int 20
int 30
text "text"
; in registers: 0 int, 1 text, 2 rail, 3 obj, 4 and 5 opt, 6 place, 7 gref, 8 here
func 11 0 none int text rail obj:0 opt:0 opt:0 place gref:0 here:0
  PRINT 0
  PRINT 1
  RLEN 9 2
  PRINT 9
  GET 9 3 0
  PRINT 9
  IFOBJ 10 4 @null
  GET 9 10 0
  PRINT 9
null:
  IFOBJ 10 5 @out
  GET 9 10 0
  PRINT 9
  PLACEI 9 6
  PRINT 9
  IFHERE 7 @out
  GOPEN 10 7
  GET 9 10 0
  PRINT 9
  GOPEN 10 8
  GET 9 10 0
  PRINT 9
out:
  RET 0
end
; main
func 10 0 none
  INTK 0 0
  TEXTK 1 0
  INTK 9 2
  RAIL 2 9 @out
  INTK 9 1
  NEW 3 9 0
  NULL 4 0
  INTK 9 3
  NEW 5 9 0
  HERE 6
  GNEW 7 3
  NEW 9 9 0
  GNEW 8 9
  ASYNC 0 0
out:
  RET 0
end
entry 1
