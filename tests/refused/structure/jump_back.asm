; Only a loop's end goes back.
;
; $ x10p bounds jump_back.x10
; status 1: verify: Structure Jump 0 1
; $ x10p verify jump_back.x10
; status 1: verify: Structure Jump 0 1
places 1
int 0
func 1 3 none
INTK 0 0
JZ 0 0
RET 0
end
entry 0
