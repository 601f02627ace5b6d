; A module has 65,535 classes at most.
;
; $ x10p asm 65536_classes.asm 65536_classes.x10
; status 1: asm: line 65541 Limit
places 1
{{65536 * class}}
func 1 0 none
RET 0
end
entry 0
