; The activities of one_byte.asm without their regions: in rounds both read the byte before either writes it.
;
; $ x10p bounds one_byte_without.x10
; 0 6
; 1 10
; $ x10p run one_byte_without.x10
; 0: 1
places 1
int 0
int 1
func 4 0 none rail
  INTK 1 0
  RGET 2 0 1 5
  INTK 3 1
  ADD 2 2 3
  RSET 0 1 2 5
  RET 0
end
func 2 0 none
  INTK 0 1
  RAIL 1 0 9
  FINB
  ASYNC 1 0
  ASYNC 1 0
  FINE
  INTK 0 0
  RGET 0 1 0 9
  PRINT 0
  RET 0
end
entry 1
