; A jump out of a finish that stands in a loop: to the loop's end, and so to its next turn, where another finish would
; be opened. In function 0 the jump stands behind the FINE.
;
; $ x10p bounds jump_out_of_a_finish_in_a_loop.x10
; status 1: verify: Structure Jump 1 2
; $ x10p verify jump_out_of_a_finish_in_a_loop.x10
; status 1: verify: Structure Jump 1 2
places 1
func 1 1 none
LOOP 0 2
FINB
FINE
JMP 4
ENDL 0 1
RET 0
end
func 1 1 none
LOOP 0 2
FINB
JMP 4
FINE
ENDL 0 1
RET 0
end
entry 0
