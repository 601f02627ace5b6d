; Where a function has no result, the a of its RET is 0.
;
; $ x10p verify result_where_there_is_none.x10
; status 1: verify: Result 1 1
places 1
class
int 7
func 1 0 none
RET 0
end
func 2 0 none int
INTK 1 0
RET 1
end
entry 0
