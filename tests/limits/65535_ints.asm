; The most ints.
;
; $ x10p verify 65535_ints.x10
; verified 1 functions, entry bound 1
places 1
{{65535 * int 1}}
func 1 0 none
RET 0
end
entry 0
