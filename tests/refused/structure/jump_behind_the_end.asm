; There are two instructions, 0 and 1: a jump to the one behind them.
;
; $ x10p bounds jump_behind_the_end.x10
; status 1: verify: Structure Jump 0 0
; $ x10p verify jump_behind_the_end.x10
; status 1: verify: Structure Jump 0 0
places 1
func 1 0 none
JMP 2
RET 0
end
entry 0
