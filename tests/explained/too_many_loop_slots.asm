; More loop slots than a function may have.
;
; $ x10p asm --explain too_many_loop_slots.asm too_many_loop_slots.x10
; status 1: asm: line 9 Limit
; > too_many_loop_slots.asm:9:8: Limit: func 1 9 none
; >                                            ^
; > A function has 8 loop slots at most.
places 1
func 1 9 none
RET 0
end
entry 0
