; TLEN asks for a Text.
;
; $ x10p verify tlen_of_int.x10
; status 1: verify: Kind 0 0
places 1
int 7
func 1 0 none int
TLEN 0 0
RET 0
end
func 1 0 none
RET 0
end
entry 1
