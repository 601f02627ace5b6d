; A reference that is copied twice names one object still: what one activity puts into it the other one finds.
;
; $ x10p bounds two_copies_of_a_reference.x10
; 0 5
; 1 8
; 2 16
; $ x10p run two_copies_of_a_reference.x10
; 0: 42
; takes 60 events
places 3
class int
int 0
int 30
int 12
; adds a number to the object's field
func 4 0 none here:0 int
  GOPEN 2 0
  GET 3 2 0
  ADD 3 3 1
  PUT 2 3 0
  RET 0
end
func 4 0 none gref:0 int
  HOME 2 0
  AT 0 0 2 0
  RET 0
end
; main
func 5 0 none
  INTK 0 0
  NEW 4 0 0
  GNEW 0 4
  INTK 1 1
  PLACEK 2 1
  FINB
  ATA 0 2 1
  FINE
  INTK 1 2
  PLACEK 2 2
  FINB
  ATA 0 2 1
  FINE
  GET 0 4 0
  PRINT 0
  RET 0
end
entry 2
