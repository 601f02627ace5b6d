; The most functions; the last is the entry.
;
; $ x10p verify 256_functions.x10
; verified 256 functions, entry bound 1
places 1
{{256 * func 1 0 none | RET 0 | end}}
entry 255
