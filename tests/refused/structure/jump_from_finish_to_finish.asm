; No jump goes from one finish into the next. In function 0 it goes from the first to its own FINE.
;
; $ x10p bounds jump_from_finish_to_finish.x10
; status 1: verify: Structure Jump 1 1
; $ x10p verify jump_from_finish_to_finish.x10
; status 1: verify: Structure Jump 1 1
places 1
func 1 0 none
FINB
JMP 2
FINE
FINB
FINE
RET 0
end
func 1 0 none
FINB
JMP 4
FINE
FINB
FINE
RET 0
end
entry 0
