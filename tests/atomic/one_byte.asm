; Two activities add 1 to one byte of a rail, each inside an atomic region. The jumps go to the region's ATOME.
;
; $ x10p bounds one_byte.x10
; 0 8
; 1 10
; $ x10p run one_byte.x10
; 0: 2
; $ x10p run one_byte.x10 --threads
; 0: 2
; 20 times
version 2
places 1
int 0
int 1
func 4 0 none rail
  ATOMB
  INTK 1 0
  RGET 2 0 1 6
  INTK 3 1
  ADD 2 2 3
  RSET 0 1 2 6
  ATOME
  RET 0
end
func 2 0 none
  INTK 0 1
  RAIL 1 0 9
  FINB
  ASYNC 1 0
  ASYNC 1 0
  FINE
  INTK 0 0
  RGET 0 1 0 9
  PRINT 0
  RET 0
end
entry 1
