; A loop's end that goes to its LOOP.
;
; $ x10p check loop_end_elsewhere.asm
; Jump, function 0, instruction 2: ENDL 0 0
; line 14: ENDL 0 @again
; ENDL goes to the instruction right after its LOOP, here 1; this one goes to 0. The LOOP is in line 12: LOOP 0 3
; status 1: verify: Structure Jump 0 2
places 1
int 7
func 1 1 none
again:
LOOP 0 3
HERE 0
ENDL 0 @again
RET 0
end
entry 0
