; A number has no fields.
;
; $ x10p verify get_of_int.x10
; status 1: verify: Kind 0 0
places 1
class int
func 2 0 none int
GET 1 0 0
RET 0
end
func 1 0 none
RET 0
end
entry 1
