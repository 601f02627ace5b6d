; A loop's end without a loop.
;
; $ x10p check no_loop_open.asm
; Nesting, function 0, instruction 1: ENDL 0 1
; line 13: ENDL 0 @turn
; No loop is open here, so ENDL closes none.
; status 1: verify: Structure Nesting 0 1
places 1
int 7
func 1 1 none
HERE 0
turn:
ENDL 0 @turn
RET 0
end
entry 0
