; IFSAME compares two places, or the homes of global references with them, and goes to its label where they differ.
;
; $ x10p bounds same_place_or_not.x10
; 0 7
; 1 31
; $ x10p run same_place_or_not.x10
; 0: 2
; 0: 1
; 0: 5
; 0: 2
; takes 23 events
; $ x10p run same_place_or_not.x10 --places 3
; 0: 2
; 0: 2
; 0: 5
; 0: 3
; takes 23 events
places 2
class int
int 1
int 2
int 5
func 6 0 none place place
  IFSAME 0 1 @other
  INTK 2 0
  PRINT 2
  RET 0
other:
  INTK 2 1
  PRINT 2
  RET 0
end
func 6 0 none
  HERE 0
  PLACEK 1 1
  CALL 0 0 0
  NEXTP 1 1
  CALL 0 0 0
  INTK 2 2
  NEW 3 2 0
  GNEW 4 3
  IFSAME 4 0 @apart
  PRINT 2
  NEXTP 1 0
  IFSAME 1 4 @apart
  PRINT 2
  RET 0
apart:
  COUNT 2
  PRINT 2
  RET 0
end
entry 1
