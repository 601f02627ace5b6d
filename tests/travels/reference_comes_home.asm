; A reference goes from place 0 to 1, on to 2, and from there back to 0, where IFHERE finds that it can be opened. At
; the other places it can't.
;
; $ x10p bounds reference_comes_home.x10
; 0 14
; 1 9
; $ x10p run reference_comes_home.x10
; 0: 42
; 1: -1
; 2: -1
; takes 60 events
; $ x10p run reference_comes_home.x10 --places 5
; 0: 42
; 1: -1
; 2: -1
; 3: -1
; 4: -1
; takes 100 events
places 3
class int
int -1
int 1
int 42
int 5
; opens the reference where its home is here, and else goes on to the next place
func 5 0 none int gref:0
  IFHERE 1 @elsewhere
  GOPEN 2 1
  GET 3 2 0
  PRINT 3
  RET 0
elsewhere:
  INTK 2 0
  PRINT 2
  JZ 0 @out
  INTK 2 1
  SUB 0 0 2
  HERE 2
  NEXTP 2 2
  ATA 0 2 0
out:
  RET 0
end
; main
func 4 0 none
  INTK 0 2
  NEW 2 0 0
  INTK 0 3
  GNEW 1 2
  PLACEK 3 1
  FINB
  ATA 0 3 0
  FINE
  RET 0
end
entry 1
