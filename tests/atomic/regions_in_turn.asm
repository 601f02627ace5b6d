; A region after another one, an empty one, and one in a finish. ATOMB and ATOME are a step each.
;
; $ x10p bounds regions_in_turn.x10
; 0 13
; $ x10p run regions_in_turn.x10
; 0: 7
; 0: 7
; takes 13 events
version 2
places 1
int 7
func 1 0 none
  INTK 0 0
  ATOMB
  PRINT 0
  ATOME
  ATOMB
  PRINT 0
  ATOME
  FINB
  ATOMB
  ATOME
  FINE
  HERE 0
  RET 0
end
entry 0
