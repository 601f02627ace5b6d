; A jump backward.
;
; $ x10p verify --explain jump_back.x10
; status 1: verify: Structure Jump 0 1
; > Jump, function 0, instruction 1: JMP 0
; > Only ENDL goes back, and a jump goes to a later instruction; this one goes to instruction 0: INTK 0 0
places 1
int 7
func 1 0 none
again:
INTK 0 0
JMP @again
PRINT 0
RET 0
end
entry 0
