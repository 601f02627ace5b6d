; No way leads to the MUL, and yet its registers have to be there.
;
; $ x10p verify index_where_no_way_leads.x10
; status 1: verify: Index 1 1
places 1
class
int 7
func 1 0 none
RET 0
end
func 2 0 none int
RET 0
MUL 1 0 2
RET 0
end
entry 0
