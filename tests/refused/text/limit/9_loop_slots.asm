; A function has 8 loop slots at most.
;
; $ x10p asm 9_loop_slots.asm 9_loop_slots.x10
; status 1: asm: line 6 Limit
places 1
func 1 9 none
