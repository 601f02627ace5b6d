; A loop that begins before a finish and ends inside it: ENDL doesn't close the finish.
;
; $ x10p bounds endl_closes_a_finish.x10
; status 1: verify: Structure Nesting 1 2
; $ x10p verify endl_closes_a_finish.x10
; status 1: verify: Structure Nesting 1 2
places 1
func 1 1 none
LOOP 0 2
FINB
FINE
ENDL 0 1
RET 0
end
func 1 1 none
LOOP 0 2
FINB
ENDL 0 1
FINE
RET 0
end
entry 0
