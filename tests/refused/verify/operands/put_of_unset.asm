; Register 1, which would be written, isn't set.
;
; $ x10p verify put_of_unset.x10
; status 1: verify: Unset 0 0
places 1
class int
func 2 0 none obj:0
PUT 0 1 0
RET 0
end
func 1 0 none
RET 0
end
entry 1
