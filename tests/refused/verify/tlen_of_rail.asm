; TLEN asks for a Text; the length of a rail is RLEN.
;
; $ x10p verify tlen_of_rail.x10
; status 1: verify: Kind 0 0
places 1
int 7
func 2 0 none rail
TLEN 1 0
RET 0
end
func 1 0 none
RET 0
end
entry 1
