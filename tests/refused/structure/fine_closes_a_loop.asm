; A finish that begins before a loop and ends inside it: FINE doesn't close the loop.
;
; $ x10p bounds fine_closes_a_loop.x10
; status 1: verify: Structure Nesting 1 2
; $ x10p verify fine_closes_a_loop.x10
; status 1: verify: Structure Nesting 1 2
places 1
func 1 1 none
FINB
LOOP 0 2
ENDL 0 2
FINE
RET 0
end
func 1 1 none
FINB
LOOP 0 2
FINE
ENDL 0 2
RET 0
end
entry 0
