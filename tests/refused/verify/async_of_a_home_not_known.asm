; The parameter's home is to be here, and nothing is known of the home of what is given. In function 1 it is known.
;
; $ x10p verify async_of_a_home_not_known.x10
; status 1: verify: Home 2 0
places 1
class
func 1 0 none here:0
RET 0
end
func 1 0 none here:0
ASYNC 0 0
RET 0
end
func 1 0 none gref:0
ASYNC 0 0
RET 0
end
func 1 0 none
RET 0
end
entry 3
