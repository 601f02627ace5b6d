; RLEN asks for a Rail.
;
; $ x10p verify rlen_of_object.x10
; status 1: verify: Kind 0 0
places 1
class rail
func 2 0 none obj:0
RLEN 1 0
RET 0
end
func 1 0 none
RET 0
end
entry 1
