; What is written to a rail is an Int.
;
; $ x10p verify rset_to_a_text.x10
; status 1: verify: Kind 0 0
places 1
int 7
func 3 0 none rail int text
RSET 0 1 2 1
RET 0
end
func 1 0 none
RET 0
end
entry 1
