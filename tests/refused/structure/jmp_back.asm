; A JMP to the first instruction: only a loop's end goes back.
;
; $ x10p bounds jmp_back.x10
; status 1: verify: Structure Jump 0 1
; $ x10p verify jmp_back.x10
; status 1: verify: Structure Jump 0 1
places 1
func 1 0 none
HERE 0
JMP 0
RET 0
end
entry 0
