; On one way the register has an object, on the other it may be null: so it may be null.
;
; $ x10p verify get_where_ways_meet.x10
; status 1: verify: Kind 0 4
places 1
class int
int 1
func 2 0 none
INTK 0 0
NEW 1 0 0
JZ 0 4
NULL 1 0
GET 0 1 0
RET 0
end
func 1 0 none
RET 0
end
entry 1
