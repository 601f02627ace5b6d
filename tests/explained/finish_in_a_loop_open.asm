; A loop that ends inside a finish which began in it.
;
; $ x10p check finish_in_a_loop_open.asm
; Nesting, function 0, instruction 2: ENDL 0 1
; line 14: ENDL 0 @turn
; A finish is open here, and its FINE has to come before this ENDL. It begins in line 13: FINB
; status 1: verify: Structure Nesting 0 2
places 1
int 7
func 1 1 none
LOOP 0 3
turn:
FINB
ENDL 0 @turn
FINE
RET 0
end
entry 0
