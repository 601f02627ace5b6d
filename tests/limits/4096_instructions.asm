; The most instructions. Only the first RET is reached.
;
; $ x10p verify 4096_instructions.x10
; verified 1 functions, entry bound 4096
; $ x10p run 4096_instructions.x10
; takes 1 event
places 1
func 1 0 none
{{4096 * RET 0}}
end
entry 0
