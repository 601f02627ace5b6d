; A reference of place 0 and one of place 1 are told apart by their homes, wherever one asks. Two references of one
; place have the same home.
;
; $ x10p bounds same_home.x10
; 0 3
; 1 7
; 2 33
; $ x10p run same_home.x10
; 2: 0
; 2: 1
; takes 49 events
places 3
class int
int 1
int 0
int 5
func 2 0 gref:0 int
  NEW 1 0 0
  GNEW 0 1
  RET 0
end
; prints 1 where both have the same home, else 0
func 3 0 none gref:0 gref:0
  IFSAME 0 1 @other
  INTK 2 0
  PRINT 2
  RET 0
other:
  INTK 2 1
  PRINT 2
  RET 0
end
; main
func 6 0 none
  INTK 0 2
  PLACEK 1 1
  AT 2 0 1 0
  CALL 3 0 0
  PLACEK 4 2
  AT 0 2 4 1
  MOVE 3 2
  AT 2 0 1 0
  AT 0 2 4 1
  RET 0
end
entry 2
