; The result's home is to be here, and nothing is known of the parameter's.
;
; $ x10p verify home_not_known.x10
; status 1: verify: Home 1 0
places 1
class
int 7
func 1 0 none
RET 0
end
func 2 0 here:0 gref:0
RET 0
end
entry 0
