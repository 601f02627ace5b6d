; A module has 65,535 ints at most.
;
; $ x10p asm 65536_ints.asm 65536_ints.x10
; status 1: asm: line 65541 Limit
places 1
{{65536 * int 1}}
func 1 0 none
RET 0
end
entry 0
