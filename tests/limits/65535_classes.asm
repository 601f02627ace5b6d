; The most classes.
;
; $ x10p verify 65535_classes.x10
; verified 1 functions, entry bound 1
places 1
{{65535 * class}}
func 1 0 none
RET 0
end
entry 0
