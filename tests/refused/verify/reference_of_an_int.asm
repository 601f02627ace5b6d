; GNEW asks for an object.
;
; $ x10p verify reference_of_an_int.x10
; status 1: verify: Kind 0 1
places 1
int 1
func 2 0 none
  INTK 0 0
  GNEW 1 0
  RET 0
end
entry 0
