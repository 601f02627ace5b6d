; No way leads to the ASYNC, and yet its function has to be there. Kinds needn't fit there: function 1 is accepted.
;
; $ x10p verify index_of_async_where_no_way_leads.x10
; status 1: verify: Index 2 1
places 1
func 1 0 none int
RET 0
end
func 1 0 none
RET 0
ASYNC 0 0
RET 0
end
func 1 0 none
RET 0
ASYNC 0 9
RET 0
end
entry 1
