; The module runs at 2 places or more, so there need be no place 2.
;
; $ x10p verify no_such_place.x10
; status 1: verify: Index 0 0
places 2
func 1 0 none
  PLACEK 0 2
  RET 0
end
entry 0
