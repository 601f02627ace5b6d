; A place that the module doesn't ask for.
;
; $ x10p check place_not_promised.asm
; Index, function 0, instruction 0: PLACEK 0 2
; line 11: PLACEK 0 2
; There may be no place 2: the line `places` promises 1 place, number 0.
; status 1: verify: Index 0 0
places 1
int 7
func 1 0 none
PLACEK 0 2
RET 0
end
entry 0
