; Another repair of `counter_refused.asm`: to ask. IFHERE goes on where the home of the reference is here, and to its
; label where it isn't. On the way where it goes on the verifier knows the home, and GOPEN is accepted there. So one
; function serves all places: at home it opens the reference, elsewhere it says that it can't.
;
; $ x10p run ask_first.x10
; 0: 7
; 1: the object is elsewhere
places 2
class int
int 7
text "the object is elsewhere"
func 2 0 none gref:0
  IFHERE 0 @elsewhere
  GOPEN 1 0
  GET 1 1 0
  PRINT 1
  RET 0
elsewhere:
  TEXTK 1 0
  PRINT 1
  RET 0
end
; main
func 3 0 none
  INTK 0 0
  NEW 1 0 0
  GNEW 0 1
  CALL 0 0 0
  PLACEK 2 1
  AT 0 0 2 0
  RET 0
end
entry 1
