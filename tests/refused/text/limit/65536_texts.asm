; A module has 65,535 texts at most.
;
; $ x10p asm 65536_texts.asm 65536_texts.x10
; status 1: asm: line 65541 Limit
places 1
{{65536 * text ""}}
func 1 0 none
RET 0
end
entry 0
