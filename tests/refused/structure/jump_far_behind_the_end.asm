; There are two instructions, 0 and 1: a jump to number 9.
;
; $ x10p bounds jump_far_behind_the_end.x10
; status 1: verify: Structure Jump 0 0
; $ x10p verify jump_far_behind_the_end.x10
; status 1: verify: Structure Jump 0 0
places 1
func 1 0 none
JMP 9
RET 0
end
entry 0
