; An atomic region isn't left inside a finish that was opened inside: the FINE has to come first.
;
; $ x10p bounds atome_closes_a_finish.x10
; status 1: verify: Structure Nesting 0 2
; $ x10p verify atome_closes_a_finish.x10
; status 1: verify: Structure Nesting 0 2
version 2
places 1
func 1 0 none
ATOMB
FINB
ATOME
FINE
RET 0
end
entry 0
