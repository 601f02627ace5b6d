; A loop without its end.
;
; $ x10p check loop_not_closed.asm
; Nesting, function 0, instruction 2: RET 0
; line 13: RET 0
; No ENDL closes the loop that begins in line 11: LOOP 0 3
; status 1: verify: Structure Nesting 0 2
places 1
int 7
func 1 1 none
LOOP 0 3
HERE 0
RET 0
end
entry 0
