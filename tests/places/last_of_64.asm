; The last of 64 places: it is there by its number, 64 is none, and place 0 comes after it.
;
; $ x10p bounds last_of_64.x10
; 0 16
; $ x10p run last_of_64.x10
; 0: 64
; 0: 63
; 0: 63
; 0: 0
; takes 15 events
places 64
int 1
int -1
func 3 0 none
  COUNT 1
  PRINT 1
  PLACEN 0 1 @none
  PRINT 1
none:
  INTK 2 1
  ADD 1 1 2
  PLACEN 0 1 @out
  PLACEI 2 0
  PRINT 2
  PLACEK 0 63
  PLACEI 2 0
  PRINT 2
  NEXTP 0 0
  PLACEI 2 0
  PRINT 2
out:
  RET 0
end
entry 0
