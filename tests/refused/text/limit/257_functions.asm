; A module has 256 functions at most.
;
; $ x10p asm 257_functions.asm 257_functions.x10
; status 1: asm: line 774 Limit
places 1
{{257 * func 1 0 none | RET 0 | end}}
entry 255
