; What may be null has no field until IFOBJ has told that it is an object.
;
; $ x10p verify put_of_what_may_be_null.x10
; status 1: verify: Kind 0 0
places 1
class int
func 2 0 none opt:0 int
PUT 0 1 0
RET 0
end
func 1 0 none
RET 0
end
entry 1
