; Main's finish governs nothing that lives when its FINE is reached. But another activity, begun before the finish, is
; inside a region by then, and main stands at the FINE until that one's ATOME.
;
; $ x10p trace finish_waits.x10
; S 0 0 1 0 ASYNC
; S 0 0 1 1 FINB
; S 0 1 0 0 ATOMB
; - 0 0
; S 0 1 0 1 HERE
; - 0 0
; S 0 1 0 2 HERE
; - 0 0
; S 0 1 0 3 ATOME
; S 0 0 1 2 FINE
; S 0 1 0 4 RET
; S 0 0 1 3 RET
version 2
places 1
func 1 0 none
  ATOMB
  HERE 0
  HERE 0
  ATOME
  RET 0
end
func 1 0 none
  ASYNC 0 0
  FINB
  FINE
  RET 0
end
entry 1
